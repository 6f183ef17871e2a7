"""Functions of crates/*/src whose bodies are the same but for names, numbers and words: tools/twins.py [COMMIT]; without it the files as they stand.

A body's tokens are compared, each name, number and word being one letter. A row is a count and the functions that are alike; the last line is their sum.
"""
import collections
import re
import subprocess
import sys

KEPT = {"if", "else", "while", "for", "in", "let", "mut", "return", "match", "as"}
TOKEN = re.compile(r"""b?"(?:[^"\\]|\\.)*"|b?'(?:[^'\\]|\\.)+'|[A-Za-z_][A-Za-z_0-9:]*|\d[\d_]*|[^\sA-Za-z_0-9]""")
BRACE = re.compile(r"""b?"(?:[^"\\]|\\.)*"|b?'(?:[^'\\]|\\.)'|[{}]""")
SIGNATURE = re.compile(r"\[(?:[^\[\]]|\[[^\[\]]*\])*\]|\b(requires|ensures)\b[^{};]*\{|[{;]")


def git(*words):
    return subprocess.run(["git", *words], check=True, capture_output=True, text=True).stdout


def texts(commit):
    """{file: text} of the sources, without comments."""
    listed = git("ls-tree", "-r", "--name-only", commit or "HEAD").split()
    files = [it for it in listed if re.fullmatch(r"crates/[^/]+/src/.*\.rt", it)]
    return {it: re.sub(r"//.*", "", git("show", f"{commit}:{it}") if commit else open(it).read()) for it in files}


def closed(text, at):
    """The place behind the brace that closes the one at a place; a brace in a word counts for none."""
    depth = 0
    for it in BRACE.finditer(text, at):
        depth += {"{": 1, "}": -1}.get(it[0], 0)
        if depth == 0:
            return it.end()
    return len(text)


def functions(text):
    """(name, body) of each function that has one, which opens behind its signature and the braces of its clauses."""
    for head in re.finditer(r'^ *(?:pub )?(?:const )?(?:extern "C" )?fn ([a-z_0-9]+)', text, re.M):
        at = head.end()
        while found := SIGNATURE.search(text, at):
            at = closed(text, found.end() - 1) if found[1] else found.end()
            if found[0] == "{":
                yield head[1], text[at:closed(text, at - 1) - 1]
            if found[0] in "{;":
                break


def shape(body):
    tokens = TOKEN.findall(body)
    return " ".join(it if it in KEPT or not re.match(r"[A-Za-z_0-9\"'b]", it) else "x" for it in tokens), len(tokens)


def main():
    commit = sys.argv[1] if len(sys.argv) > 1 else None
    alike = collections.defaultdict(list)
    for file, text in texts(commit).items():
        crate, _, rest = file.removeprefix("crates/").partition("/src/")
        for name, body in functions(text):
            found, size = shape(body)
            if size >= 6:
                alike[found].append(f"{crate}{'' if rest == 'lib.rt' else '/' + rest}:{name}")
    twins = [it for it in alike.values() if len(it) > 1]
    for it in twins:
        print(len(it), ", ".join(it))
    print(sum(map(len, twins)), "functions with a twin, of", sum(map(len, alike.values())))


if __name__ == "__main__":
    main()
