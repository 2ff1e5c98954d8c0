"""Terms, paths and results as hypothesis makes them, with characters that lines of text trip over."""

from hypothesis import strategies as st

from shacl_keep import paths
from shacl_keep.spelled import Blank, Iri, Literal

# Characters that other tools take for the end of a line, for a quote, or for a command.
HOSTILE = "\u2028\u2029\x85\x0b\x0c\x1c\r\n\t\"'\\<>^@_: \x00\x1b[31m\u202e\u200f<script>=+-|,;"

texts = st.text(st.sampled_from(HOSTILE) | st.characters(blacklist_categories=["Cs"]), max_size=20)
names = st.text(st.sampled_from("abcxyz019-_é\u2060"), min_size=1, max_size=8)
iris = st.builds(
    lambda scheme, rest: Iri(f"{scheme}:{rest}"),
    st.sampled_from(["ex", "http://example.org/", "urn:x"]),
    st.text(st.sampled_from("abc/#?&=%é\u2028(*+)!$'~.:@-"), max_size=12),
)
blanks = st.builds(lambda scope, name: Blank(f"{scope}-{name}"), st.sampled_from("dsat"), names)
tags = st.from_regex(r"[A-Za-z]{1,8}(-[A-Za-z0-9]{1,8}){0,2}", fullmatch=True)
literals = st.one_of(
    st.builds(Literal, texts),
    st.builds(lambda text, tag: Literal(text, language=tag), texts, tags),
    st.builds(lambda text, datatype: Literal(text, datatype.value), texts, iris),
)
nodes = iris | blanks
terms = iris | blanks | literals


def _longer(inner: st.SearchStrategy[paths.Path]) -> st.SearchStrategy[paths.Path]:
    several = st.lists(inner, min_size=2, max_size=3).map(lambda each: tuple(each))
    return st.one_of(
        st.builds(paths.Inverse, inner),
        st.builds(paths.ZeroOrMore, inner),
        st.builds(paths.OneOrMore, inner),
        st.builds(paths.ZeroOrOne, inner),
        st.builds(paths.Sequence, several),
        st.builds(paths.Alternative, several),
    )


all_paths: st.SearchStrategy[paths.Path] = st.recursive(iris, _longer, max_leaves=6)
