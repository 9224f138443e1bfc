"""Which code is a warrant, in sources of Rattle. Whatever implements the trait `Warrant` lets bytes be sent."""
import re
from typing import Dict, Iterator, List

# what isn't code: comments, texts and letters, but not lifetimes
NOT_CODE = re.compile(r"""//[^\n]*|/\*.*?\*/|b?r(#*)".*?"\1|b?"(?:\\.|[^"\\])*"|b?'(?:\\(?:u\{\w+\}|x\w\w|.)|[^'\\])'""", re.DOTALL)
# how a macro is called, up to its bracket, and which bracket ends what begins with one
CALL = re.compile(r"\w\s*!\s*(?:\w+\s*)?([(\[{])")
CLOSING = {"(": ")", "[": "]", "{": "}"}
NAME = re.compile(r"\bWarrant\b(?! as\b)")
# where the name implements nothing: it is declared, imported under its own name, or bounds a parameter of a function
HARMLESS = re.compile(r"\bpub trait Warrant\b|\buse [\w:{}, ]+;|\bfn \w+<\w+: Warrant>\(")


def code_of(source: str) -> str:
    """The source without comments and texts, with one blank for each row of blanks and line feeds."""
    return re.sub(r"\s+", " ", NOT_CODE.sub(" ", source))


def after_bracket(code: str, start: int) -> int:
    """The place after the bracket that closes the one at the start."""
    opened: List[str] = []
    for place in range(start, len(code)):
        if code[place] in CLOSING:
            opened.append(CLOSING[code[place]])
        elif opened and code[place] == opened[-1]:
            opened.pop()
            if not opened:
                return place + 1
    return len(code)


def macro_calls(code: str) -> Iterator[range]:
    """The places inside calls of macros, which may make anything of what they are given."""
    for call in CALL.finditer(code):
        yield range(call.start(1), after_bracket(code, call.start(1)))


def warrants_in(source: str) -> int:
    """How often the source names `Warrant` as something that may be implemented: it does so by an `impl` of any form, by a derive, in a
    macro's call, or by another name for the trait."""
    code = code_of(source)
    in_macros = list(macro_calls(code))
    harmless = [range(*it.span()) for it in HARMLESS.finditer(code) if not any(it.start() in call for call in in_macros)]
    renamed = len(re.findall(r"\bWarrant as\b", code))
    return renamed + sum(not any(name.start() in it for it in harmless) for name in NAME.finditer(code))


# samples that implement it, with how often, and some that don't
GUILTY: Dict[str, int] = {
    "impl Warrant for A {": 1,
    "impl<'s, P: Port>\n    Warrant for B<'s, P> {": 1,
    "use udp::UdpPort; struct Anything; impl Warrant for Anything {}": 1,
    "fn f() {\n    struct X; struct Y;\n    impl Warrant for X {} impl Warrant for Y {}\n}": 2,
    "unsafe impl Warrant for A {}": 1,
    "impl datagram_ports::Warrant for A {}": 1,
    "impl r#Warrant for A {}": 1,
    "impl /* a node's */ Warrant // 'last'\n    for A {}": 1,
    "let c = '\"'; impl Warrant for A {} let d = '\"';": 1,
    "fn f<'a>(x: &'a u8) { } impl Warrant for A<'a> {}": 1,
    "impl<W: Warrant> Warrant for Pair<W> {}": 2,
    "trait Mine: Warrant {}": 1,
    "use datagram_ports::Warrant as W;\nimpl W for A {}": 1,
    "use datagram_ports::{Port, Warrant as W};": 1,
    "use datagram_ports::{self, warrant::{Warrant as W, Port}};": 1,
    "pub use crate::warrant::Warrant as Leave;": 1,
    "leave! { impl Warrant for A {} }": 1,
    "leave!(A, Warrant);": 1,
    "macro_rules! leave { ($a:ident) => { impl Warrant for $a {} } }": 1,
    "leave!(fn f<W: Warrant>(x: u8));": 1,
    "leave![use datagram_ports::Warrant;];": 1,
    "#[derive(Drop, Warrant)]\nstruct A;": 1,
}
INNOCENT = (
    "pub trait Warrant {\n    ghost covers;\n}",
    "pub use crate::warrant::Warrant;",
    "use datagram_ports::{MemPort, Port, PortFault, Warrant};",
    "use datagram_ports::{\n    Port,\n    Told,\n    Warrant,\n};",
    "use datagram_ports::{Warrant, Zone};",
    "    fn grant<W: Warrant>(&mut self, warrant: &W, bytes: &[u8])",
    "/// impl Warrant for A {}\nstruct A;",
    "let text = \"impl Warrant for A {}\"; let other = r#\"a \"Warrant\"\"#;",
    "impl Warranty for A {}",
    "impl Port for A { fn grant<W: Warrant>(&mut self) { println!(rt; \"{}\", 1)?; } }",
)


def samples_problem() -> str:
    """What is wrong with what is found in the samples, if anything."""
    guilty = [it for it, count in GUILTY.items() if warrants_in(it) != count]
    innocent = [it for it in INNOCENT if warrants_in(it)]
    return f"it counts otherwise in {guilty + innocent}" if guilty + innocent else ""
