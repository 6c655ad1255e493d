"""Lexers of kinds on which nothing was fitted at first, as sources in Rust and for `PRINTERS`.

A kind is a list of rules in order: a name, which is `-` for what is skipped, and a regex in the
syntax of Rust's. The longest match counts, and of equally long ones that of the first rule. The
tools for C read bytes: so what they get are byte sequences of UTF-8, and no set has NUL, which ends
their text."""
import pathlib
import sys

sys.path.insert(0, str(pathlib.Path(__file__).resolve().parents[2] / "tests/generated"))
from byte_sets import sequences, without  # noqa: E402
from patterns import compiled  # noqa: E402

WORD = r"[A-Za-z_][A-Za-z0-9_]*"
KINDS = {
    "html": [
        ("Comment", r"<!--([^\-]|-[^\-])*-->"), ("Open", r"<[A-Za-z][A-Za-z0-9]*"), ("Close", r"</[A-Za-z][A-Za-z0-9]*[ \n]*>"),
        ("Name", r"[a-z]+(-[a-z]+)*="), ("Quoted", r'"[^"<>]*"'), ("Entity", r"&(#[0-9]+|[a-z]+);"), ("End", r"/?>"),
        ("Text", r"[^<>&\"= \n\t]+"), ("Sign", r"[&\"=<]"), ("-", r"[ \t\n]+")],
    "csv": [
        ("Quoted", r'"([^"]|"")*"'), ("Number", r"-?[0-9]+(\.[0-9]+)?"), ("Date", r"[0-9]{4}-[0-9]{2}-[0-9]{2}"),
        ("Field", r'[^",\n]+'), ("Comma", r","), ("Line", r"\n")],
    "syslog": [
        ("Time", r"[A-Z][a-z]{2} [ 0-9][0-9] [0-9]{2}:[0-9]{2}:[0-9]{2}"), ("Address", r"[0-9]{1,3}(\.[0-9]{1,3}){3}"), ("Pid", r"\[[0-9]+\]:?"),
        ("Number", r"[0-9]+"), ("Level", r"<(warning|error|info|debug)>"), ("Pair", r"[a-z_]+="), ("Path", r"(/[A-Za-z0-9_.\-]+)+"),
        ("Word", r"[A-Za-z][A-Za-z0-9_.\-]*"), ("Sign", r"[:,;()=/]"), ("-", r"[ \n]+")],
    "minjs": [
        ("Keyword", r"(var|let|const|function|return|if|else|for|while|new|this|typeof|null|true|false|void)"), ("Name", r"[A-Za-z_$][A-Za-z0-9_$]*"),
        ("Number", r"[0-9]+(\.[0-9]+)?([eE][+\-]?[0-9]+)?"), ("Hex", r"0x[0-9a-f]+"), ("Text", r'"([^"\\\n]|\\[^\n])*"'), ("Single", r"'([^'\\\n]|\\[^\n])*'"),
        ("Long", r"(===|!==|>>>|&&|\|\||=>|==|!=|<=|>=|\+\+|--|\+=|-=|\?\.|\.\.\.)"), ("Sign", r"[(){}\[\];,.<>=+\-*/%!?:&|^~]"), ("-", r"[ \n]+")],
    "asia": [
        ("Hiragana", r"[\u{3041}-\u{3096}]+"), ("Katakana", r"[\u{30A1}-\u{30FA}\u{30FC}]+"), ("Han", r"[\u{4E00}-\u{9FFF}]+"), ("Hangul", r"[\u{AC00}-\u{D7A3}]+"),
        ("Thai", r"[\u{0E01}-\u{0E3A}\u{0E40}-\u{0E4E}]+"), ("Hindi", r"[\u{0900}-\u{0963}]+"), ("Latin", r"[A-Za-z]+"), ("Number", r"[0-9\u{FF10}-\u{FF19}]+"),
        ("Mark", r"[\u{3001}\u{3002}\u{300C}\u{300D}\u{FF01}\u{FF0C}\u{FF1F}!,.?]"), ("-", r"[ \n\u{3000}]+")],
    "hexdump": [
        ("Offset", r"[0-9a-f]{8}"), ("Byte", r"[0-9a-f]{2}"), ("Text", r"\|[^|\n]*\|"), ("Star", r"\*"), ("-", r"[ \n]+")],
    "tex": [
        ("Command", r"\\[A-Za-z]+\*?"), ("Escape", r"\\[^A-Za-z]"), ("Comment", r"%[^\n]*"), ("Math", r"\$\$?"), ("Brace", r"[{}\[\]]"), ("Script", r"[\^_&~]"),
        ("Number", r"[0-9]+(\.[0-9]+)?"), ("Word", r"[A-Za-z]+"), ("Sign", r"[=+\-*/(),.:;!?'`<>|\"]"), ("-", r"[ \t\n]+")],
    "settings": [
        ("Address", r"[0-9]{1,3}(\.[0-9]{1,3}){3}(:[0-9]+)?"), ("Size", r"[0-9]+[kmgs]?"), ("Variable", r"\$[a-z_]+"), ("Quoted", r'"([^"\\\n]|\\[^\n])*"'),
        ("Path", r"/[A-Za-z0-9_./\-]*"), ("Word", r"[a-z_][A-Za-z0-9_.\-]*"), ("Sign", r"[{};=~*^]"), ("-", r"([ \t\n]+|#[^\n]*)")],
    "diff": [
        ("Head", r"(---|\+\+\+|diff|index) [^\n]*"), ("Place", r"@@ [^\n]*"), ("Added", r"\+[^\n]*"), ("Removed", r"-[^\n]*"), ("Kept", r" [^\n]*"), ("Line", r"\n")],
    "lisp": [
        ("Round", r"[()]"), ("Quote", r"['`,@]"), ("Comment", r";[^\n]*"), ("Text", r'"([^"\\]|\\.)*"'), ("Number", r"-?[0-9]+(\.[0-9]+)?"), ("Key", r":[a-z\-]+"),
        ("Name", r"[A-Za-z+*/<>=!?\-][A-Za-z0-9+*/<>=!?\-]*"), ("-", r"[ \n]+")],
}


def shown(tree, of_set, signs):
    """Returns the text of a tree, where a function shows sets of bytes, and the signs stand between
    the parts of a sequence and between alternatives."""
    then, either = signs
    kind, *parts = tree
    if kind == "repetition":
        least, most, _, body = parts
        short = {(0, None): "*", (1, None): "+", (0, 1): "?"}
        bounds = short.get((least, most), f"{{{least},{'' if most is None else most}}}")
        return f"({shown(body, of_set, signs)}){bounds}"
    if kind == "literal":
        return "(" + then.join(of_set([(byte, byte)]) for byte in parts[0]) + ")"
    if kind == "class":
        ranges, of_characters = without(parts[0], [(0, 0)]), parts[1]
        found = sequences(ranges) if of_characters else [(it,) for it in ranges]
        alone = [it[0] for it in found if len(it) == 1]
        several = (then.join(of_set([it]) for it in one) for one in found if len(one) > 1)
        return "(" + either.join([*[of_set(alone)] * bool(alone), *several]) + ")"
    if kind == "capture":
        return shown(parts[0], of_set, signs)
    sign = then if kind == "concatenation" else either
    return "(" + sign.join(shown(it, of_set, signs) for it in parts[0]) + ")"


def flex_set(ranges):
    return "[" + "".join(f"\\x{low:02x}-\\x{high:02x}" for low, high in ranges) + "]"


def ragel_set(ranges):
    return "(" + " | ".join(f"0x{low:02x}..0x{high:02x}" for low, high in ranges) + ")"


def flex_text(tree):
    return shown(tree, flex_set, ("", "|"))


def ragel_text(tree):
    return shown(tree, ragel_set, (" . ", " | "))


def numbered(rules):
    """Returns each rule's number, which is 0 where it is skipped, and the tree of its regex."""
    numbers = {name: n for n, name in enumerate(name for name, _ in rules if name != "-")}
    return [(numbers.get(name, -1) + 1, compiled(regex, True, False)) for name, regex in rules]


def rust(rules):
    lines = ["use logos::Logos;", "", "#[derive(Logos, Clone, Copy, Debug, PartialEq)]"]
    lines += [f'#[logos(skip(r#"{regex}"#, priority = {1000 - n}, allow_greedy = true))]' for n, (name, regex) in enumerate(rules) if name == "-"]
    lines += ["pub enum Token {"]
    for n, (name, regex) in enumerate(rules):
        if name != "-":
            lines += [f'    #[regex(r#"{regex}"#, priority = {1000 - n}, allow_greedy = true)]', f"    {name},"]
    return lines + ["}"]


def flex(numbers):
    lines = ["%{", '#include "main.h"', "%}", "%option noyywrap nounput noinput never-interactive 8bit", "%%"]
    lines += [f"{flex_text(tree)} {f'TAKE({number}, yyleng);' if number else 'at += yyleng;'}" for number, tree in numbers]
    return lines + [".|\\n errors++; at += yyleng; ends += at;", "%%", '#include "main_flex.h"']


def re2c(numbers):
    lines = ['#include "main.h"', "static void lex(const unsigned char *cursor, const unsigned char *limit) {", "const unsigned char *marker; (void)marker;"]
    lines += ["for (;;) { const unsigned char *start = cursor;", "/*!re2c", 're2c:define:YYCTYPE = "unsigned char";']
    lines += ["re2c:define:YYCURSOR = cursor;", "re2c:define:YYMARKER = marker;", "re2c:yyfill:enable = 0;"]
    lines += [f"{flex_text(tree)} {{ {f'TAKE({number}, cursor - start);' if number else 'at += cursor - start;'} continue; }}" for number, tree in numbers]
    lines += ['[\\x00] { if (cursor > limit) return; errors++; at++; ends += at; continue; }', "* { errors++; at++; ends += at; continue; }", "*/ } }"]
    return lines + ['#include "main_re2c.h"']


def ragel(numbers):
    lines = ['#include "main.h"', "%%{ machine lexer; alphtype unsigned char; main := |*"]
    lines += [f"({ragel_text(tree)}) => {{ {f'TAKE({number}, te - ts);' if number else 'at += te - ts;'} }};" for number, tree in numbers]
    lines += ["any => { errors++; at++; ends += at; };", "*|; }%%", "%% write data nofinal noerror noentry;"]
    lines += ["static void lex(const unsigned char *p, const unsigned char *pe) {", "const unsigned char *ts, *te, *eof = pe; int cs, act; (void)act;"]
    return lines + ["%% write init;", "%% write exec;", "}", '#include "main_re2c.h"']


PRINTERS = {"flex": flex, "re2c": re2c, "ragel": ragel}


def source(kind, program):
    """Returns the lexer of a kind as a source of a program."""
    lines = rust(KINDS[kind]) if program == "rust" else PRINTERS[program](numbered(KINDS[kind]))
    return "\n".join(lines) + "\n"
