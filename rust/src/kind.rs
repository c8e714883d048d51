//! What a record is, by the numbers of docs/FORMAT.md, 'Records'.

use crate::numbered::numbered;

numbered! {
    /// The kind of a record: a definition, a statement, an expression or a token. A kind's children
    /// and its value are said where it has any.
    pub enum Kind {
        /// Value: the file. Children: definitions.
        Document = 1 "document",
        /// Pairs of a name and a constant's token or nothing.
        LocalDefinition = 10 "local definition",
        /// Value: the file. Pairs of names, public name then alias.
        Include = 11 "include",
        /// Value: the name. Children: names of properties.
        Model = 12 "model",
        /// Value: the name. Children: names of properties.
        PublicModel = 13 "public model",
        /// Value: the name. Children: parameters, then statements.
        Function = 14 "function",
        /// Value: the name. Children: parameters, then statements.
        PublicFunction = 15 "public function",
        /// Value: the model's name. Children: functions.
        Implement = 16 "implement",
        /// Names of the source and of the target model.
        Apply = 17 "apply",
        /// Pairs of a name and an expression or nothing.
        LocalStatement = 20 "local statement",
        /// `return`.
        Return = 21 "return",
        /// `break`.
        Break = 22 "break",
        /// `rescue`.
        Rescue = 23 "rescue",
        /// A name, the enumerable, statements.
        For = 24 "for",
        /// One expression.
        ExpressionStatement = 25 "expression statement",
        /// Value: the text.
        Identifier = 30 "identifier",
        /// `this`.
        This = 31 "this",
        /// `null`.
        Null = 32 "null",
        /// Value: two's complement.
        Integer = 33 "integer",
        /// Value: the bits.
        Float = 34 "float",
        /// Value: the text.
        String = 35 "string",
        /// Value: 0 or 1.
        Boolean = 36 "boolean",
        /// Children: values.
        Array = 37 "array",
        /// Value: a [`Prefix`]. Child: right.
        Prefix = 38 "prefix",
        /// Value: an [`Infix`]. Children: left, right.
        Infix = 39 "infix",
        /// Value: the text.
        Name = 40 "name",
        /// Value: the text `this`, one number in the whole bundle.
        ThisParameter = 41 "this parameter",
        /// The condition, a block, perhaps another.
        If = 42 "if",
        /// Children: statements.
        Block = 43 "block",
        /// The function, its parameters.
        Call = 44 "call",
        /// The instance, the index.
        InstanceGet = 45 "instance get",
        /// The instance, the index.
        IndexGet = 46 "index get",
        /// A token that is no constant.
        OtherToken = 47 "other token",
        /// No value.
        Absent = 49 "absent",
    }
}

numbered! {
    /// What stands before an expression.
    pub enum Prefix {
        /// `-`.
        Minus = 0 "-",
        /// `not`.
        Not = 1 "not",
        /// Another token: error 3.
        Other = 2 "another prefix",
    }
}

numbered! {
    /// What stands between two expressions.
    pub enum Infix {
        /// `=`.
        Assign = 0 "=",
        /// `+`.
        Plus = 1 "+",
        /// `-`.
        Minus = 2 "-",
        /// `*`.
        Star = 3 "*",
        /// `/`.
        Slash = 4 "/",
        /// `%`.
        Percent = 5 "%",
        /// `+=`.
        PlusAssign = 6 "+=",
        /// `-=`.
        MinusAssign = 7 "-=",
        /// `*=`.
        StarAssign = 8 "*=",
        /// `/=`.
        SlashAssign = 9 "/=",
        /// `%=`.
        PercentAssign = 10 "%=",
        /// `==`.
        Equal = 11 "==",
        /// `!=`.
        NotEqual = 12 "!=",
        /// `>`.
        Greater = 13 ">",
        /// `<`.
        Less = 14 "<",
        /// `>=`.
        GreaterEqual = 15 ">=",
        /// `<=`.
        LessEqual = 16 "<=",
        /// `and`.
        And = 17 "and",
        /// `or`.
        Or = 18 "or",
        /// Another token: error 3.
        Other = 19 "another infix",
    }
}

impl Kind {
    /// Whether it stands among a document's definitions.
    pub fn is_definition(self) -> bool {
        (Kind::LocalDefinition..=Kind::Apply).contains(&self)
    }

    /// Whether it stands among statements.
    pub fn is_statement(self) -> bool {
        (Kind::LocalStatement..=Kind::ExpressionStatement).contains(&self)
    }

    /// Whether it stands where an expression does.
    pub fn is_expression(self) -> bool {
        (Kind::Identifier..=Kind::Infix).contains(&self)
            || matches!(self, Kind::If | Kind::Call | Kind::InstanceGet | Kind::IndexGet)
    }

    /// Whether its value is a text.
    pub fn holds_text(self) -> bool {
        use Kind::*;
        matches!(self, Document | Include | Model | PublicModel | Function | PublicFunction | Implement)
            || matches!(self, Identifier | String | Name | ThisParameter)
    }

    /// Whether it has the position of a token; else its position is 0.
    pub fn has_position(self) -> bool {
        use Kind::*;
        !matches!(self, Document | LocalDefinition | Apply | LocalStatement | ExpressionStatement | If | Block | Absent)
    }
}

#[cfg(test)]
mod tests {
    use super::*;

    #[test]
    fn numbers_come_back() {
        assert!(Kind::ALL.iter().all(|&kind| Kind::from_number(kind.number()) == Some(kind)));
        assert_eq!((Kind::ALL.len(), Infix::ALL.len(), Prefix::ALL.len()), (34, 20, 3));
        assert_eq!((Kind::from_number(0), Kind::from_number(48), Infix::from_number(20)), (None, None, None));
    }

    #[test]
    fn groups_are_those_of_the_papers() {
        let numbers = |is: fn(Kind) -> bool| Kind::ALL.iter().filter(move |kind| is(**kind)).map(|kind| kind.number());
        assert!(numbers(Kind::is_definition).eq(10..=17));
        assert!(numbers(Kind::is_statement).eq(20..=25));
        assert!(numbers(Kind::is_expression).eq((30..=39).chain([42, 44, 45, 46])));
        assert!(numbers(|kind| !kind.has_position()).eq([1, 10, 17, 20, 25, 42, 43, 49]));
        assert!(numbers(Kind::holds_text).eq([1, 11, 12, 13, 14, 15, 16, 30, 35, 40, 41]));
    }
}
