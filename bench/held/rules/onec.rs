//! Programs in the language of 1C, whose keywords are Russian words in any case.

use logos::Logos;

#[derive(Logos, Clone, Copy, Debug, PartialEq)]
#[logos(skip r"[ \t\r\n]+")]
#[logos(skip(r"//[^\n]*", allow_greedy = true))]
pub enum Token {
    #[token("Процедура", ignore(case))]
    Procedure,
    #[token("КонецПроцедуры", ignore(case))]
    EndProcedure,
    #[token("Функция", ignore(case))]
    Function,
    #[token("КонецФункции", ignore(case))]
    EndFunction,
    #[token("Если", ignore(case))]
    If,
    #[token("Тогда", ignore(case))]
    Then,
    #[token("Иначе", ignore(case))]
    Else,
    #[token("КонецЕсли", ignore(case))]
    EndIf,
    #[token("Для", ignore(case))]
    For,
    #[token("Каждого", ignore(case))]
    Each,
    #[token("Из", ignore(case))]
    From,
    #[token("По", ignore(case))]
    To,
    #[token("Цикл", ignore(case))]
    Do,
    #[token("КонецЦикла", ignore(case))]
    EndDo,
    #[token("Возврат", ignore(case))]
    Return,
    #[token("Перем", ignore(case))]
    Var,
    #[token("Новый", ignore(case))]
    New,
    #[token("И", ignore(case), priority = 3)]
    And,
    #[token("Или", ignore(case))]
    Or,
    #[token("Не", ignore(case))]
    Not,
    #[token("Истина", ignore(case))]
    True,
    #[token("Ложь", ignore(case))]
    False,
    #[token("Неопределено", ignore(case))]
    Undefined,
    #[token("(")]
    Open,
    #[token(")")]
    Close,
    #[token(",")]
    Comma,
    #[token(";")]
    Semicolon,
    #[token(".")]
    Dot,
    #[regex(r"[\p{L}_][\p{L}\p{Nd}_]*")]
    Name,
    #[regex(r"[0-9]+(\.[0-9]+)?")]
    Number,
    #[regex(r#""([^"\n]|"")*""#)]
    Text,
    #[regex(r"'[0-9]{8,14}'")]
    Date,
    #[regex(r"[#&]\p{L}+")]
    Directive,
    #[regex(r"<>|<=|>=|[<>=]")]
    Compare,
    #[regex(r"[+\-*/%?\[\]]")]
    Sign,
}
