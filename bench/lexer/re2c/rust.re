#include "scanner.h"

static void lex(const unsigned char *cursor, const unsigned char *limit)
{
    const unsigned char *marker;
    (void)marker;
    for (;;) {
        /*!include:re2c "unicode_categories.re" */
        /*!re2c
            re2c:define:YYCTYPE = "unsigned char";
            re2c:define:YYCURSOR = cursor;
            re2c:define:YYMARKER = marker;
            re2c:yyfill:enable = 0;

            "as" | "break" | "const" | "continue" | "crate" | "else" | "enum" { tokens++; continue; }
            "extern" | "false" | "fn" | "for" | "if" | "impl" | "in" | "let" { tokens++; continue; }
            "loop" | "match" | "mod" | "move" | "mut" | "pub" | "ref" { tokens++; continue; }
            "return" | "self" | "Self" | "static" | "struct" | "super" { tokens++; continue; }
            "trait" | "true" | "type" | "unsafe" | "use" | "where" | "while" { tokens++; continue; }
            "async" | "await" | "dyn" { tokens++; continue; }

            name = (L | Nl | "_") (L | Nl | Mn | Mc | Nd | Pc)*;
            ("r#")? name { tokens++; continue; }
            "'" name { tokens++; continue; }
            [0-9][0-9_]*("."[0-9][0-9_]*)?([eE][-+]?[0-9_]+)?([iuf]("8"|"16"|"32"|"64"|"128"|"size"))? { tokens++; continue; }
            "0x"[0-9a-fA-F_]+ | "0b"[01_]+ | "0o"[0-7_]+ { tokens++; continue; }
            ["]([^"\\\x00]|[\\][^\x00])*["] { tokens++; continue; }
            "r" ["][^"\x00]*["] { tokens++; continue; }
            "r#" ["]([^"\x00]|["]+[^"#\x00])*["]+ "#" { tokens++; continue; }
            [']([^'\\\n\x00]|[\\][^u\n\x00]|"\\u{"[0-9a-fA-F]+"}")['] { tokens++; continue; }
            [-+*/%^!&|><=:;,.(){}[\]#$?@~'`\\] { tokens++; continue; }
            "&&" | "||" | "<<" | ">>" | "+=" | "-=" | "*=" | "/=" | "==" | "!=" { tokens++; continue; }
            ">=" | "<=" | "->" | "=>" | ".." | "..=" | "::" { tokens++; continue; }
            [ \t\r\n]+ { continue; }
            "//"[^\n\x00]* { continue; }
            "/*"([^*\x00]|"*"+[^*/\x00])*"*"+"/" { continue; }
            "\x00" { if (cursor > limit) return; errors++; continue; }
            * { errors++; continue; }
        */
    }
}

#include "re2c_main.h"
