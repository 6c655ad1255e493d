#include "scanner.h"

static void lex(const unsigned char *cursor, const unsigned char *limit)
{
    const unsigned char *marker;
    (void)marker;
    for (;;) {
        /*!re2c
            re2c:define:YYCTYPE = "unsigned char";
            re2c:define:YYCURSOR = cursor;
            re2c:define:YYMARKER = marker;
            re2c:yyfill:enable = 0;

            date = [0-9]{4} "-" [0-9]{2} "-" [0-9]{2};
            time = [0-9]{2} ":" [0-9]{2} ":" [0-9]{2} ("." [0-9]+)?;
            whole = [-+]? ("0" | [1-9] ("_"? [0-9])*);
            "true" | "false" { tokens++; continue; }
            date ([T ] time ("Z" | [-+] [0-9]{2} ":" [0-9]{2})?)? { tokens++; continue; }
            time { tokens++; continue; }
            whole | "0x" [0-9a-fA-F] ("_"? [0-9a-fA-F])* { tokens++; continue; }
            whole "." [0-9] ("_"? [0-9])* ([eE] [-+]? [0-9]+)? | [-+]? ("inf" | "nan") { tokens++; continue; }
            [A-Za-z0-9_-]+ { tokens++; continue; }
            [[\]{}=.,] { tokens++; continue; }
            "\r"? "\n" { tokens++; continue; }
            ["]([^"\\\n\x00]|[\\][^\n\x00])*["] { tokens++; continue; }
            ['][^'\n\x00]*['] { tokens++; continue; }
            ["]{3}([^"\\\x00]|[\\][^\x00]|["][^"\\\x00]|["]{2}[^"\\\x00])*["]{3} { tokens++; continue; }
            [ \t]+ { continue; }
            "#"[^\r\n\x00]* { continue; }
            "\x00" { if (cursor > limit) return; errors++; continue; }
            * { errors++; continue; }
        */
    }
}

#include "re2c_main.h"
