#include "scanner.h"

static void lex(const unsigned char *cursor, const unsigned char *limit)
{
    const unsigned char *marker;
    (void)marker;
    for (;;) {
        const unsigned char *start = cursor;
        /*!re2c
            re2c:define:YYCTYPE = "unsigned char";
            re2c:define:YYCURSOR = cursor;
            re2c:define:YYMARKER = marker;
            re2c:yyfill:enable = 0;

            blank = [ \t\r\n];

            'select' | 'from' | 'where' | 'group' | 'order' | 'having' | 'limit' { tokens++; continue; }
            'union' | 'insert' | 'into' | 'values' | 'update' | 'delete' | 'set' { tokens++; continue; }
            ('left' | 'right' | 'full' | 'inner' | 'cross') blank+ ('outer' blank+)? 'join' | 'join' { tokens++; continue; }
            'and' | 'or' | 'not' | 'as' | 'on' | 'by' | 'asc' | 'desc' | 'distinct' | 'null' { tokens++; continue; }
            'is' | 'in' | 'like' | 'between' | 'case' | 'when' | 'then' | 'else' | 'end' { tokens++; continue; }
            [a-zA-Z_][a-zA-Z0-9_$]* { COUNT_SHORT(cursor - start); continue; }
            ["]([^"\x00]|["]["])+["] { COUNT_SHORT(cursor - start); continue; }
            [']([^'\x00]|[']['])*['] { COUNT_SHORT(cursor - start); continue; }
            [0-9]+("."[0-9]+)?([eE][-+]?[0-9]+)? { tokens++; continue; }
            [:@$][a-zA-Z0-9_]+ | "?" { tokens++; continue; }
            [-+*/%<>=(),.;] | "<>" | "<=" | ">=" | "!=" | "||" | "::" { tokens++; continue; }
            blank+ { continue; }
            "--"[^\n\x00]* { continue; }
            "/*"([^*\x00]|"*"+[^*/\x00])*"*"+"/" { continue; }
            "\x00" { if (cursor > limit) return; errors++; continue; }
            * { errors++; continue; }
        */
    }
}

#include "re2c_main.h"
