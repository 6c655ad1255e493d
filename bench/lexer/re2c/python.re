#include "scanner.h"

static void lex(const unsigned char *cursor, const unsigned char *limit)
{
    const unsigned char *marker;
    (void)marker;
    for (;;) {
        /*!include:re2c "unicode_categories.re" */
        /*!re2c
            re2c:define:YYCTYPE = "unsigned char";
            re2c:define:YYCURSOR = cursor;
            re2c:define:YYMARKER = marker;
            re2c:yyfill:enable = 0;

            "False" | "None" | "True" | "and" | "as" | "assert" | "async" { tokens++; continue; }
            "await" | "break" | "class" | "continue" | "def" | "del" | "elif" { tokens++; continue; }
            "else" | "except" | "finally" | "for" | "from" | "global" | "if" { tokens++; continue; }
            "import" | "in" | "is" | "lambda" | "nonlocal" | "not" | "or" { tokens++; continue; }
            "pass" | "raise" | "return" | "try" | "while" | "with" | "yield" { tokens++; continue; }
            "match" { tokens++; continue; }

            digits = [0-9]("_"?[0-9])*;
            exponent = [eE][-+]? digits;
            prefix = [rRbBuUfF] | [rR][bBfF] | [bBfF][rR];
            (L | Nl | "_") (L | Nl | Mn | Mc | Nd | Pc)* { tokens++; continue; }
            digits ("." digits?)? exponent? "j"? { tokens++; continue; }
            "." digits exponent? "j"? { tokens++; continue; }
            "0"[xX]("_"?[0-9a-fA-F])+ | "0"[oO]("_"?[0-7])+ | "0"[bB]("_"?[01])+ { tokens++; continue; }
            prefix? ["]([^"\\\n\x00]|[\\][^\x00])*["] { tokens++; continue; }
            prefix? [']([^'\\\n\x00]|[\\][^\x00])*['] { tokens++; continue; }
            prefix? ["]{3}(["]{0,2}([^"\\\x00]|[\\][^\x00]))*["]{3} { tokens++; continue; }
            prefix? [']{3}([']{0,2}([^'\\\x00]|[\\][^\x00]))*[']{3} { tokens++; continue; }
            "\r"? "\n" { tokens++; continue; }
            [-+*/%@&|^~<>()[\]{},:.;=] { tokens++; continue; }
            "**" | "//" | "<<" | ">>" | ":=" | "->" | "==" | "!=" | "<=" | ">=" | "..." { tokens++; continue; }
            [-+*/%@&|^]"=" | "**=" | "//=" | "<<=" | ">>=" { tokens++; continue; }
            [ \t\f]+ { continue; }
            "#"[^\n\x00]* { continue; }
            "\\\n" { continue; }
            "\x00" { if (cursor > limit) return; errors++; continue; }
            * { errors++; continue; }
        */
    }
}

#include "re2c_main.h"
