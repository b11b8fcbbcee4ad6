"""Where ghost text ends: clauses, ghost members, `ghost use` and `impl Model`. The text inside is not Rust, and is not read."""

from __future__ import annotations

from tokens import Kind, Source, Token, UnknownForm, expected, found


def block_end(source: Source, at: int) -> int:
    """The place after the block of definitions that begins with the brace here.

    Braces in its texts and comments count for nothing: a comment begins with two dashes after a blank.
    """
    text = source.text
    if text[at:at + 1] != "{":
        raise UnknownForm(f"a brace is due, not {text[at:at + 20]!r}", at)
    if text[at + 1:].lstrip().startswith("}"):
        raise UnknownForm("an empty ghost block", at)
    start, depth = at, 0
    while at < len(text):
        sign = text[at]
        if text.startswith("--", at) and text[at - 1].isspace():
            at = found(text, "\n", at)
        elif sign == '"':
            at = found(text, '"', at + 1)
        elif sign == "'" and text[at + 1:at + 2] in ("{", "}", '"') and text[at + 2:at + 3] == "'":
            at += 2
        depth += (sign == "{") - (sign == "}")
        at += 1
        if depth == 0:
            return at
    raise UnknownForm("a ghost block does not end", start)


def clause_end(source: Source, word: Token) -> int:
    """The place after the clause that begins with `requires` or `ensures`: a star, a name, a block."""
    token = source.after(word)
    if token.text == "*":
        token = source.after(token)
    if token.kind is Kind.WORD:
        token = source.after(token)
    return block_end(source, token.at)


def is_use(source: Source, word: Token) -> bool:
    """Whether the word `ghost` begins an import."""
    return source.after(word).text == "use"


def member_end(source: Source, word: Token) -> int:
    """The place after what begins with `ghost`: an import, or a member or field with its blocks."""
    name = source.after(word)
    if name.text == "use":
        return found(source.text, ";", name.at) + 1
    if name.kind is not Kind.WORD:
        raise UnknownForm(f"ghost {name.text!r}", name.at)
    sign = expected(source.after(name), ":", "=")
    at = block_end(source, source.after(sign).at)
    while (token := source.next(at)).text in ("=", "by"):
        at = block_end(source, source.after(token).at)
    return expected(token, ",", ";").end


def model_end(source: Source, word: Token) -> int | None:
    """The place after an `impl Model for ..` block, where the word `impl` begins one: all of it is ghost."""
    token = word
    while token.text not in ("{", ";") and token.kind is not Kind.END:
        if token.text == "Model" and source.after(token).text == "for":
            return _members_end(source, token)
        token = source.after(token)
    return None


def _members_end(source: Source, token: Token) -> int:
    while token.text != "{":
        if token.kind is Kind.END:
            raise UnknownForm("an `impl Model` without a block", token.at)
        token = source.after(token)
    token = source.after(token)
    while token.text == "ghost":
        token = source.next(member_end(source, token))
    return expected(token, "}").end
