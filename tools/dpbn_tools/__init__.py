"""What the installed Python tools of dpbn share. Python 3.8, and nothing but its standard library."""
