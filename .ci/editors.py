"""The highlighting of editors/ on all grammars of formats/: each byte has the colour of its token, by the table of tokens of
docs/LANGUAGE.md.

  editors.py textmate|vim|emacs

Ends with status 1 where a byte has another colour.
"""

import json
import os
import re
import subprocess
import sys
import tempfile

TOP = os.path.dirname(os.path.dirname(os.path.abspath(__file__)))

# A letter for each kind of token; a sign is left out where an editor has no colour for it.
KINDS = {"comment": "c", "string": "s", "keyword": "k", "place": "p", "primitive": "t", "number": "n", "name": "v", "sign": "o"}
WORDS = {**dict.fromkeys("for to do switch case else where many tok".split(), "keyword"),
         **dict.fromkeys("start end EOI".split(), "place"),
         **dict.fromkeys("U8 U16LE U16BE U32LE U32BE U64LE U64BE Bytes".split(), "primitive")}
TOKEN = re.compile(r'(?P<space>[ \t\r\n]+)|(?P<comment>#[^\n]*)|(?P<string>"(?:[^"\\]|\\x[0-9A-Fa-f]{2}|\\["\\])*")'
                   r"|(?P<name>[A-Za-z_][A-Za-z0-9_]*)|(?P<number>0x[0-9A-Fa-f]+|[0-9]+)|(?P<sign>[^\s\w])")


def tokens(text):
    """A letter for each byte of a grammar."""
    out, at = "", 0
    while at < len(text):
        found = TOKEN.match(text, at)
        kind = WORDS.get(found[0], found.lastgroup)
        out += found[0] if kind == "space" else KINDS[kind] * len(found[0])
        at = found.end()
    return out


# ---- the editors

SCOPES = {"comment": "c", "string": "s", "keyword.control": "k", "constant.language": "p", "support.type": "t",
          "constant.numeric": "n", "variable.other": "v", "keyword.operator": "o"}


def letter(scope):
    return next(kind for name, kind in SCOPES.items() if scope.startswith(name))


def line_by_textmate(rules, line):
    """The leftmost rule that matches is taken, among equal ones the first; what is between begin and end has the rule's name."""
    out, at = list(line), 0
    while at < len(line):
        tried = [(found.start(), place, found) for place, rule in enumerate(rules)
                 for found in [re.compile(rule.get("match") or rule["begin"]).search(line, at)] if found]
        if not tried:
            break
        _, place, found = min(tried, key=lambda one: one[:2])
        rule, behind = rules[place], found.end()
        while "begin" in rule:
            inner = [re.compile(one["match"]).search(line, behind) for one in rule["patterns"]] + [re.compile(rule["end"]).search(line, behind)]
            first = min((one for one in inner if one), key=lambda one: one.start())
            behind = first.end()
            if first is inner[-1]:
                break
        for place in range(found.start(), behind):
            out[place] = letter(rule["name"]) if line[place] != " " or letter(rule["name"]) in "cs" else " "
        at = max(behind, at + 1)
    return "".join(out)


def by_textmate(text):
    with open(os.path.join(TOP, "editors", "ipg.tmLanguage.json"), encoding="utf-8") as file:
        rules = json.load(file)["patterns"]
    return "\n".join(line_by_textmate(rules, line) for line in text.split("\n"))


VIM = r"""
set nocompatible encoding=utf-8
let &runtimepath = $EDITORS . "/vim," . &runtimepath
filetype plugin on
syntax on
edit $GRAMMAR
syntax sync fromstart
let letters = {"ipgComment": "c", "ipgString": "s", "ipgEscape": "s", "ipgKeyword": "k", "ipgPlace": "p", "ipgPrimitive": "t",
  \ "ipgNumber": "n", "ipgName": "v", "ipgOperator": "o", "": " "}
let lines = []
for row in range(1, line("$"))
  let out = ""
  for column in range(1, len(getline(row)))
    let out .= get(letters, synIDattr(synID(row, column, 1), "name"), "?")
  endfor
  call add(lines, out)
endfor
call writefile(lines, $ANSWER)
qall!
"""

EMACS = r"""
(add-to-list 'load-path (concat (getenv "EDITORS") "/emacs"))
(require 'ipg-mode)
(find-file (getenv "GRAMMAR"))
(unless (eq major-mode 'ipg-mode) (error "no ipg-mode"))
(font-lock-ensure)
(let ((letters '((font-lock-comment-face . "c") (font-lock-comment-delimiter-face . "c") (font-lock-string-face . "s")
                 (font-lock-keyword-face . "k") (font-lock-constant-face . "p") (font-lock-type-face . "t")
                 (font-lock-variable-name-face . "v")))
      (parts nil))
  (dotimes (at (buffer-size))
    (let ((face (get-text-property (1+ at) 'face)))
      (push (cond ((eq (char-after (1+ at)) ?\n) "\n") ((null face) " ")
                  (t (or (cdr (assq (if (consp face) (car face) face) letters)) "?")))
            parts)))
  (write-region (apply #'concat (nreverse parts)) nil (getenv "ANSWER") nil 'quiet))
"""


def by_editor(words, script, grammar):
    with tempfile.TemporaryDirectory() as folder:
        answer = os.path.join(folder, "answer")
        with open(os.path.join(folder, "script"), "w", encoding="utf-8") as file:
            file.write(script)
        environment = dict(os.environ, EDITORS=os.path.join(TOP, "editors"), GRAMMAR=grammar, ANSWER=answer, HOME=folder)
        subprocess.run([*words, os.path.join(folder, "script")], env=environment, stdin=subprocess.DEVNULL, capture_output=True, timeout=60)
        if not os.path.exists(answer):
            return ""
        with open(answer, encoding="utf-8") as file:
            return file.read()


def colours(editor, grammar, text):
    if editor == "textmate":
        return by_textmate(text)
    if editor == "vim":
        return by_editor(["vim", "-es", "-u", "NONE", "-i", "NONE", "-n", "-S"], VIM, grammar)
    return by_editor(["emacs", "-Q", "--batch", "-l"], EMACS, grammar)


def due(editor, text):
    """Emacs has no colour for signs, and one for numbers and places."""
    letters = tokens(text)
    return letters.replace("o", " ").replace("n", "p") if editor == "emacs" else letters


def grammars():
    """All grammars of formats/, one behind the other."""
    folder, out = os.path.join(TOP, "formats"), ""
    for name in sorted(name for name in os.listdir(folder) if name.endswith(".ipg")):
        with open(os.path.join(folder, name), encoding="ascii") as file:
            out += file.read()
    return out


def main():
    editor, text = sys.argv[1], grammars()
    with tempfile.TemporaryDirectory() as folder:
        grammar = os.path.join(folder, "all.ipg")
        with open(grammar, "w", encoding="ascii") as file:
            file.write(text)
        got, wanted = colours(editor, grammar, text), due(editor, text)
    place = next((at for at, (one, other) in enumerate(zip(got, wanted)) if one != other), min(len(got), len(wanted)))
    if got == wanted and text:
        print(f"editors: {editor}: the colours of {len(text)} bytes")
        return 0
    print(f"editors: {editor}: byte {place}, {text[place:place + 20]!r}: {got[place:place + 20]!r}, due {wanted[place:place + 20]!r}",
          file=sys.stderr)
    return 1


if __name__ == "__main__":
    sys.exit(main())
