#include "scanner.h"

static void lex(const unsigned char *cursor, const unsigned char *limit)
{
    const unsigned char *marker;
    (void)marker;
    for (;;) {
        /*!re2c
            re2c:define:YYCTYPE = "unsigned char";
            re2c:define:YYCURSOR = cursor;
            re2c:define:YYMARKER = marker;
            re2c:yyfill:enable = 0;

            start = [:A-Z_a-z\u0080-\U0010FFFF];
            name = start (start | [-.0-9])*;
            blank = [ \t\r\n];
            tag = "<" name (blank+ name blank* "=" blank* (["][^<"\x00]*["] | ['][^<'\x00]*[']))* blank*;
            [^<&\n\x00]+ { tokens++; continue; }
            "\n" [ \t\r\n]* { tokens++; continue; }
            tag ">" { tokens++; continue; }
            tag "/>" { tokens++; continue; }
            "</" name blank* ">" { tokens++; continue; }
            "&" name ";" { tokens++; continue; }
            "&#" ([0-9]+ | "x"[0-9a-fA-F]+) ";" { tokens++; continue; }
            "<!--" ([^-\x00] | "-" [^-\x00])* "-->" { tokens++; continue; }
            "<![CDATA[" ([^\]\x00] | "]"+ [^\]>\x00])* "]" "]"+ ">" { tokens++; continue; }
            "<?" name (blank ([^?\x00] | "?"+ [^?>\x00])*)? "?"+ ">" { tokens++; continue; }
            "<!DOCTYPE" ([^[\]<>\x00] | "[" [^\]\x00]* "]")* ">" { tokens++; continue; }
            "<" | "&" { tokens++; continue; }
            "\x00" { if (cursor > limit) return; errors++; continue; }
            * { errors++; continue; }
        */
    }
}

#include "re2c_main.h"
