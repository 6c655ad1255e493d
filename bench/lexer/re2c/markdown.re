#include "scanner.h"

static void lex(const unsigned char *cursor, const unsigned char *limit)
{
    const unsigned char *marker;
    (void)marker;
    for (;;) {
        /*!re2c
            re2c:define:YYCTYPE = "unsigned char";
            re2c:define:YYCURSOR = cursor;
            re2c:define:YYMARKER = marker;
            re2c:yyfill:enable = 0;

            blank = [ \t\n];
            attribute = [A-Za-z_:][A-Za-z0-9_.:-]* ("=" ([^ \t\n"'=<>`\x00]+ | ['][^'\x00]*['] | ["][^"\x00]*["]))?;
            "\n" { tokens++; continue; }
            "\n" [ \t]* "\n" [ \t\n]* { tokens++; continue; }
            [^\\`*_[\]()<>!&~\n#|:\-\x00]+ { tokens++; continue; }
            "`" [^`\n\x00]+ "`" { tokens++; continue; }
            "``" [^\n`\x00]+ ("`" [^`\n\x00]+)* "``" { tokens++; continue; }
            "```" [^`\n\x00]* "\n" ([^`\x00] | "`" [^`\x00] | "``" [^`\x00])* "```" { tokens++; continue; }
            "*"{1,3} | "_"{1,3} | "~~" { tokens++; continue; }
            "!"? "[" [^\][\n\x00]* "](" [^) \t\n\x00]* ([ \t]+ ["][^"\n\x00]*["])? ")" { tokens++; continue; }
            "!"? "[" [^\][\n\x00]* "][" [^\][\n\x00]* "]" { tokens++; continue; }
            "<" ("http" "s"? | "ftp" | "mailto") ":" [^ <>\n\x00]+ ">" { tokens++; continue; }
            "<" "/"? [A-Za-z][A-Za-z0-9-]* (blank+ attribute)* blank* "/"? ">" { tokens++; continue; }
            "&" ([A-Za-z][A-Za-z0-9]* | "#" [0-9]{1,7} | "#" [xX] [0-9A-Fa-f]{1,6}) ";" { tokens++; continue; }
            "\\" [!-/:-@[-`{-~\n] { tokens++; continue; }
            "#"{1,6} [ \t] { tokens++; continue; }
            "--" "-"+ | ":" "-"+ ":"? | "|" { tokens++; continue; }
            [\\`[\]()<>!&~#:-] { tokens++; continue; }
            "\x00" { if (cursor > limit) return; errors++; continue; }
            * { errors++; continue; }
        */
    }
}

#include "re2c_main.h"
