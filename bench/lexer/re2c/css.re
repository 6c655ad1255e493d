#include "scanner.h"

static void lex(const unsigned char *cursor, const unsigned char *limit)
{
    const unsigned char *marker;
    (void)marker;
    for (;;) {
        const unsigned char *start = cursor;
        /*!re2c
            re2c:define:YYCTYPE = "unsigned char";
            re2c:define:YYCURSOR = cursor;
            re2c:define:YYMARKER = marker;
            re2c:yyfill:enable = 0;

            start = [a-zA-Z_\u0080-\U0010FFFF] | [\\][^\n\x00];
            rest = [-a-zA-Z0-9_\u0080-\U0010FFFF] | [\\][^\n\x00];
            name = ("--" | "-"? start) rest*;
            number = [-+]?([0-9]+("."[0-9]+)?|"."[0-9]+)([eE][-+]?[0-9]+)?;

            'url' "(" [ \t]*[^ \t\r\n()"'\\\x00]*[ \t]*")" { COUNT_SHORT(cursor - start); continue; }
            name { tokens++; continue; }
            name "(" { tokens++; continue; }
            "@" name { tokens++; continue; }
            "#" rest+ { COUNT_SHORT(cursor - start); continue; }
            number { tokens++; continue; }
            number "%" { tokens++; continue; }
            number name { COUNT_SHORT(cursor - start); continue; }
            ["]([^"\\\n\x00]|[\\][^\x00])*["] { COUNT_SHORT(cursor - start); continue; }
            [']([^'\\\n\x00]|[\\][^\x00])*['] { COUNT_SHORT(cursor - start); continue; }
            "<!--" | "-->" { tokens++; continue; }
            [~|^$*] "=" { tokens++; continue; }
            [-:;,(){}.<>+~*|=!&/[\]] { tokens++; continue; }
            [ \t\r\n]+ { continue; }
            "/*"([^*\x00]|"*"+[^*/\x00])*"*"+"/" { continue; }
            "\x00" { if (cursor > limit) return; errors++; continue; }
            * { errors++; continue; }
        */
    }
}

#include "re2c_main.h"
