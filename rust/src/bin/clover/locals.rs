//! Which name each local of a function has. The back end numbers locals as it compiles them and keeps
//! no names, so the function's records are walked in the order of compiling. Every number belongs to
//! one definition; if the count is not the function's own, nothing is known.

use clover_back_end::nodes::Node;
use clover_back_end::{Infix, Kind, Text};

/// What a local holds.
#[derive(Clone, Copy, Debug, PartialEq, Eq)]
pub enum Local {
    Named(Text),
    /// What a loop goes through; the name is the loop's.
    LoopValues(Text),
    /// How far a loop is; the name is the loop's.
    LoopCount(Text),
}

/// The locals of a function's record by number; none if they are not `count`.
pub fn locals(function: Node, count: u64) -> Option<Vec<Local>> {
    let mut walk = Walk { locals: Vec::new(), most: usize::try_from(count).ok()? };
    for child in function.children() {
        match child.kind()? {
            Kind::Name | Kind::ThisParameter => walk.define(Local::Named(child.text()?))?,
            _ => walk.statement(child)?,
        }
    }
    (walk.locals.len() == walk.most).then_some(walk.locals)
}

struct Walk {
    locals: Vec<Local>,
    /// No more than this is looked for.
    most: usize,
}

impl Walk {
    fn define(&mut self, local: Local) -> Option<()> {
        self.locals.push(local);
        (self.locals.len() <= self.most).then_some(())
    }

    fn all<'a>(&mut self, statements: impl Iterator<Item = Node<'a>>) -> Option<()> {
        statements.into_iter().try_for_each(|statement| self.statement(statement))
    }

    fn statement(&mut self, statement: Node) -> Option<()> {
        let mut children = statement.children();
        match statement.kind()? {
            Kind::LocalStatement => {
                while let (Some(name), Some(value)) = (children.next(), children.next()) {
                    self.define(Local::Named(name.text()?))?;
                    self.expression(value)?;
                }
                Some(())
            }
            Kind::For => {
                let (name, values) = (children.next()?.text()?, children.next()?);
                self.define(Local::LoopValues(name))?;
                self.define(Local::LoopCount(name))?;
                self.expression(values)?;
                self.define(Local::Named(name))?;
                self.all(children)
            }
            Kind::ExpressionStatement => self.expression(children.next()?),
            _ => Some(()),
        }
    }

    fn expression(&mut self, expression: Node) -> Option<()> {
        let mut children = expression.children();
        match expression.kind()? {
            Kind::If => {
                let (condition, holds) = (children.next()?, children.next()?);
                self.expression(condition)?;
                // The false part is compiled first.
                self.all(children.next().into_iter().flat_map(|fails| fails.children()))?;
                self.all(holds.children())
            }
            Kind::Infix => self.infix(expression),
            _ => children.try_for_each(|child| self.expression(child)),
        }
    }

    fn infix(&mut self, expression: Node) -> Option<()> {
        let mut children = expression.children();
        let (left, right) = (children.next()?, children.next()?);
        match Infix::from_number(expression.value())? {
            Infix::Assign => {
                self.expression(right)?;
                self.target(left)
            }
            infix => {
                self.expression(left)?;
                self.expression(right)?;
                // A compound assignment compiles its target again.
                let compound = (Infix::PlusAssign..=Infix::PercentAssign).contains(&infix);
                if compound {
                    self.target(left)
                } else {
                    Some(())
                }
            }
        }
    }

    /// Of a target's own parts; a name has none.
    fn target(&mut self, target: Node) -> Option<()> {
        target.children().try_for_each(|part| self.expression(part))
    }
}

#[cfg(test)]
mod tests {
    use super::*;
    use clover_back_end::nodes::documents;
    use clover_back_end::records::{Records, Statements};
    use clover_back_end::{Areas, Position};

    fn text(number: u64) -> Text {
        Text::from_number(number)
    }

    /// The locals of `function f(x)` with a body, as the library counts them.
    fn of(body: impl FnOnce(&mut Statements)) -> Vec<Local> {
        let mut tree = Records::new();
        tree.document(text(2), |book| book.function(text(3)).parameter(text(4)).body(body));
        let mut areas = Areas::for_tree(tree.words());
        let program = areas.compile_growing(tree.words(), 1 << 20).expect("delivered");
        let count = program.function(0).expect("f").locals();
        let document = documents(tree.words()).next().expect("a book");
        locals(document.children().next().expect("f"), count).expect("as many as the function has")
    }

    const NONE: Position = Position::NONE;

    #[test]
    fn the_false_part_comes_first() {
        let found = of(|body| {
            body.expression(|slot| {
                let out = slot.if_expression().condition(|slot| slot.identifier(text(4)));
                let out = out.then(|body| body.local(|local| local.absent(text(5))));
                out.otherwise(|body| body.local(|local| local.absent(text(6))))
            });
            body.local(|local| local.absent(text(7)));
        });
        assert_eq!(found, [4, 6, 5, 7].map(|number| Local::Named(text(number))));
    }

    #[test]
    fn loops_have_two_more() {
        let found = of(|body| {
            let out = body.for_statement(text(5), NONE).over(|slot| slot.identifier(text(4)));
            out.body(|body| body.local(|local| local.absent(text(6))));
        });
        let (values, count) = (Local::LoopValues(text(5)), Local::LoopCount(text(5)));
        assert_eq!(found, [Local::Named(text(4)), values, count, Local::Named(text(5)), Local::Named(text(6))]);
    }

    #[test]
    fn compound_targets_count_twice() {
        let found = of(|body| {
            body.expression(|slot| {
                let out = slot.infix(Infix::PlusAssign, NONE).left(|slot| {
                    slot.index_get(NONE).instance(|slot| slot.identifier(text(4))).index(|slot| {
                        let out = slot.if_expression().condition(|slot| slot.boolean(true, NONE));
                        out.then(|body| body.local(|local| local.absent(text(5)))).end()
                    })
                });
                out.right(|slot| slot.integer(1, NONE))
            });
        });
        assert_eq!(found, [4, 5, 5].map(|number| Local::Named(text(number))));
    }
}
