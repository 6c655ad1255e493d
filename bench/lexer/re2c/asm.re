#include "scanner.h"

static void lex(const unsigned char *cursor, const unsigned char *limit)
{
    const unsigned char *marker;
    (void)marker;
    for (;;) {
        /*!re2c
            re2c:define:YYCTYPE = "unsigned char";
            re2c:define:YYCURSOR = cursor;
            re2c:define:YYMARKER = marker;
            re2c:yyfill:enable = 0;

            name = [A-Za-z_.][A-Za-z0-9_.$@]*;
            number = "0x"[0-9a-fA-F]+ | [0-9]+;
            condition = "e" | "ne" | "l" | "le" | "g" | "ge" | "a" | "ae" | "b" | "be" | "s" | "ns" | "z" | "nz" | "c"
                | "nc" | "p" | "np" | "o" | "no";
            operation = "mov" | "lea" | "add" | "sub" | "xor" | "and" | "or" | "cmp" | "test" | "shl" | "shr" | "sar"
                | "imul" | "push" | "pop" | "inc" | "dec" | "neg" | "not";
            register = [er]? [abcd] "x" | [abcd][lh] | [er]? ("si" | "di" | "bp" | "sp") "l"? | "r" ("8" | "9" | "1"[0-5])[dwb]?
                | [xyz] "mm" [0-9]{1,2} | [cdefgs] "s" | "rip";
            "call" | "ret" | "jmp" | "nop" | "leave" | "cltq" | "cqto" | "endbr64" | "hlt" { tokens++; continue; }
            operation [bwlq]? { tokens++; continue; }
            ("j" | "set" | "cmov") condition { tokens++; continue; }
            name ":" { tokens++; continue; }
            "%" register { tokens++; continue; }
            "$" "-"? number { tokens++; continue; }
            "$" name { tokens++; continue; }
            "." [A-Za-z_][A-Za-z0-9_.]* { tokens++; continue; }
            [0-9]+[fb] { tokens++; continue; }
            "-"? number { tokens++; continue; }
            name { tokens++; continue; }
            ["]([^"\\\n\x00]|[\\][^\n\x00])*["] { tokens++; continue; }
            [-,()[\]*+@:;=<>|&!~/%^$] { tokens++; continue; }
            "\n" { tokens++; continue; }
            [ \t\r]+ { continue; }
            "#"[^\n\x00]* { continue; }
            "/*"([^*\x00]|"*"+[^*/\x00])*"*"+"/" { continue; }
            "\x00" { if (cursor > limit) return; errors++; continue; }
            * { errors++; continue; }
        */
    }
}

#include "re2c_main.h"
