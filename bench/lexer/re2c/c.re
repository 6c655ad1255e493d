#include "scanner.h"

static void lex(const unsigned char *cursor, const unsigned char *limit)
{
    const unsigned char *marker;
    (void)marker;
    for (;;) {
        /*!re2c
            re2c:define:YYCTYPE = "unsigned char";
            re2c:define:YYCURSOR = cursor;
            re2c:define:YYMARKER = marker;
            re2c:yyfill:enable = 0;

            "auto" | "break" | "case" | "char" | "const" | "continue" { tokens++; continue; }
            "default" | "do" | "double" | "else" | "enum" | "extern" | "float" { tokens++; continue; }
            "for" | "goto" | "if" | "inline" | "int" | "long" | "register" { tokens++; continue; }
            "restrict" | "return" | "short" | "signed" | "sizeof" | "static" { tokens++; continue; }
            "struct" | "switch" | "typedef" | "union" | "unsigned" | "void" { tokens++; continue; }
            "volatile" | "while" | "_Bool" | "_Static_assert" { tokens++; continue; }

            suffix = [uU]("l" "l"? | "L" "L"?)? | ("l" "l"? | "L" "L"?)[uU]?;
            exponent = [eE][-+]?[0-9]+;
            "#"[ \t]*("error" | "warning")[^\n\x00]* { tokens++; continue; }
            "#"[ \t]*[a-z]+ { tokens++; continue; }
            [A-Za-z_$][A-Za-z0-9_$]* { tokens++; continue; }
            [\u0080-\U0010FFFF]+ { tokens++; continue; }
            ("0" | [1-9][0-9]* | "0"[0-7]+ | "0"[xX][0-9a-fA-F]+) suffix? { tokens++; continue; }
            ([0-9]+ "." [0-9]* | "."[0-9]+) exponent? [fFlL]? | [0-9]+ exponent [fFlL]? { tokens++; continue; }
            ("u8" | [uUL])? ["]([^"\\\n\x00]|[\\][^\x00])*["] { tokens++; continue; }
            [uUL]? [']([^'\\\n\x00]|[\\][^\n\x00])+['] { tokens++; continue; }
            ["'`\\@] { tokens++; continue; }
            [-+*/%&|^!=<>()[\]{};,?:~.#] { tokens++; continue; }
            "++" | "--" | "->" | "..." | "##" | [-+*/%&|^!=<>]"=" { tokens++; continue; }
            "<<" "="? | ">>" "="? | "&&" | "||" { tokens++; continue; }
            [ \t\r\n\f\v]+ { continue; }
            "//"[^\n\x00]* { continue; }
            "/*"([^*\x00]|"*"+[^*/\x00])*"*"+"/" { continue; }
            "\\" "\r"? "\n" { continue; }
            "\x00" { if (cursor > limit) return; errors++; continue; }
            * { errors++; continue; }
        */
    }
}

#include "re2c_main.h"
