//! Names, paths and attributes.
use super::{AstNode, Attr, Expr, GenericArgList, Meta, Name, NameRef, ParenthesizedArgList, Path, PathSegment};
use super::{Lifetime, TokenTree, TypeAnchor};
use crate::SyntaxKind;
use std::iter::successors;

impl<'t> Name<'t> {
    /// Its text.
    ///
    /// ```
    /// use rap_tree::ast::{AstNode, Name};
    /// use rap_tree::{Edition, TopEntryPoint, Tree};
    ///
    /// let tree = Tree::of_text(Edition::CURRENT, TopEntryPoint::SourceFile, "struct S;");
    /// assert_eq!(tree.root().descendants().find_map(Name::cast).unwrap().text(), "S");
    /// ```
    #[must_use]
    pub fn text(self) -> &'t str {
        self.syntax().text()
    }
}

impl<'t> NameRef<'t> {
    /// Its text.
    ///
    /// ```
    /// use rap_tree::ast::{AstNode, NameRef};
    /// use rap_tree::{Edition, TopEntryPoint, Tree};
    ///
    /// let tree = Tree::of_text(Edition::CURRENT, TopEntryPoint::Expr, "x");
    /// assert_eq!(tree.root().descendants().find_map(NameRef::cast).unwrap().text(), "x");
    /// ```
    #[must_use]
    pub fn text(self) -> &'t str {
        self.syntax().text()
    }

    /// The number of a field that has no name.
    ///
    /// ```
    /// use rap_tree::ast::{AstNode, FieldExpr};
    /// use rap_tree::{Edition, TopEntryPoint, Tree};
    ///
    /// let tree = Tree::of_text(Edition::CURRENT, TopEntryPoint::Expr, "pair.1");
    /// let name = FieldExpr::cast(tree.root()).unwrap().name_ref().unwrap();
    /// assert_eq!(name.as_tuple_field(), Some(1));
    /// ```
    #[must_use]
    pub fn as_tuple_field(self) -> Option<usize> {
        self.int_number_token()?.text().parse().ok()
    }
}

impl<'t> Lifetime<'t> {
    /// Its text, with the quote.
    ///
    /// ```
    /// use rap_tree::ast::{AstNode, Lifetime};
    /// use rap_tree::{Edition, TopEntryPoint, Tree};
    ///
    /// let tree = Tree::of_text(Edition::CURRENT, TopEntryPoint::Type, "&'a u8");
    /// assert_eq!(tree.root().descendants().find_map(Lifetime::cast).unwrap().text(), "'a");
    /// ```
    #[must_use]
    pub fn text(self) -> &'t str {
        self.syntax().text()
    }
}

/// What a segment of a path is.
///
/// ```
/// use rap_tree::ast::{AstNode, PathSegment, PathSegmentKind};
/// use rap_tree::{Edition, TopEntryPoint, Tree};
///
/// let tree = Tree::of_text(Edition::CURRENT, TopEntryPoint::Expr, "crate");
/// let segment = tree.root().descendants().find_map(PathSegment::cast).unwrap();
/// assert_eq!(segment.kind(), Some(PathSegmentKind::CrateKw));
/// ```
#[derive(Clone, Copy, Debug, PartialEq, Eq, Hash)]
#[allow(missing_docs)]
pub enum PathSegmentKind<'t> {
    Name(NameRef<'t>),
    Type(TypeAnchor<'t>),
    SelfTypeKw,
    SelfKw,
    SuperKw,
    CrateKw,
}

impl<'t> PathSegment<'t> {
    /// What it is.
    ///
    /// ```
    /// use rap_tree::ast::{AstNode, PathSegment, PathSegmentKind};
    /// use rap_tree::{Edition, TopEntryPoint, Tree};
    ///
    /// let tree = Tree::of_text(Edition::CURRENT, TopEntryPoint::Expr, "x");
    /// let segment = tree.root().descendants().find_map(PathSegment::cast).unwrap();
    /// assert!(matches!(segment.kind(), Some(PathSegmentKind::Name(name)) if name.text() == "x"));
    /// ```
    #[must_use]
    pub fn kind(self) -> Option<PathSegmentKind<'t>> {
        if let Some(anchor) = self.type_anchor() {
            return Some(PathSegmentKind::Type(anchor));
        }
        let name = self.name_ref()?;
        Some(match name.syntax().first_token()?.kind() {
            SyntaxKind::SELF_KW => PathSegmentKind::SelfKw,
            SyntaxKind::SELF_TYPE_KW => PathSegmentKind::SelfTypeKw,
            SyntaxKind::SUPER_KW => PathSegmentKind::SuperKw,
            SyntaxKind::CRATE_KW => PathSegmentKind::CrateKw,
            _ => PathSegmentKind::Name(name),
        })
    }

    /// Its arguments, and those in brackets.
    fn args(self) -> (Option<GenericArgList<'t>>, Option<ParenthesizedArgList<'t>>) {
        (self.generic_arg_list(), self.parenthesized_arg_list())
    }
}

impl<'t> Path<'t> {
    /// Its segments, from left to right.
    ///
    /// ```
    /// use rap_tree::ast::{AstNode, PathType};
    /// use rap_tree::{Edition, TopEntryPoint, Tree};
    ///
    /// let tree = Tree::of_text(Edition::CURRENT, TopEntryPoint::Type, "std::vec::Vec<u8>");
    /// let path = PathType::cast(tree.root()).unwrap().path().unwrap();
    /// assert_eq!(path.segments().map(|it| it.to_string()).collect::<Vec<_>>(), ["std", "vec", "Vec<u8>"]);
    /// ```
    pub fn segments(self) -> impl Iterator<Item = PathSegment<'t>> + Clone {
        let first = successors(Some(self), |it| it.qualifier()).last();
        let around = move |it: &Path<'t>| if *it == self { None } else { Path::cast(it.syntax().parent()?) };
        successors(first, around).filter_map(|it| it.segment())
    }

    /// Its name, if it is one without arguments.
    ///
    /// ```
    /// use rap_tree::ast::{AstNode, PathType};
    /// use rap_tree::{Edition, TopEntryPoint, Tree};
    ///
    /// let name = |text| {
    ///     let tree = Tree::of_text(Edition::CURRENT, TopEntryPoint::Type, text);
    ///     let path = PathType::cast(tree.root())?.path()?;
    ///     path.as_single_name_ref().map(|it| it.text().to_owned())
    /// };
    /// assert_eq!(name("Vec"), Some("Vec".into()));
    /// assert_eq!((name("std::Vec"), name("Vec<u8>")), (None, None));
    /// ```
    #[must_use]
    pub fn as_single_name_ref(self) -> Option<NameRef<'t>> {
        let segment = self.segment()?;
        let is_single = self.qualifier().is_none() && segment.args() == (None, None);
        segment.name_ref().filter(|_| is_single)
    }
}

impl<'t> Attr<'t> {
    /// What is in it, past each `unsafe(..)`.
    fn inner_meta(self) -> Option<Meta<'t>> {
        let within = |meta: &Meta<'t>| match meta {
            Meta::UnsafeMeta(it) => it.meta(),
            _ => None,
        };
        successors(self.meta(), within).last()
    }

    /// Its path.
    ///
    /// ```
    /// use rap_tree::ast::{Attr, AstNode};
    /// use rap_tree::{Edition, TopEntryPoint, Tree};
    ///
    /// let tree = Tree::of_text(Edition::CURRENT, TopEntryPoint::SourceFile, "#[rustfmt::skip] fn f() {}");
    /// let attr = tree.root().descendants().find_map(Attr::cast).unwrap();
    /// assert_eq!(attr.path().unwrap().to_string(), "rustfmt::skip");
    /// ```
    #[must_use]
    pub fn path(self) -> Option<Path<'t>> {
        match self.inner_meta()? {
            Meta::PathMeta(it) => it.path(),
            Meta::KeyValueMeta(it) => it.path(),
            Meta::TokenTreeMeta(it) => it.path(),
            _ => None,
        }
    }

    /// Its name, if its path is one.
    ///
    /// ```
    /// use rap_tree::ast::{Attr, AstNode};
    /// use rap_tree::{Edition, TopEntryPoint, Tree};
    ///
    /// let tree = Tree::of_text(Edition::CURRENT, TopEntryPoint::SourceFile, "#[derive(Clone)] struct S;");
    /// let attr = tree.root().descendants().find_map(Attr::cast).unwrap();
    /// assert_eq!(attr.simple_name(), Some("derive"));
    /// assert_eq!(attr.token_tree().unwrap().to_string(), "(Clone)");
    /// ```
    #[must_use]
    pub fn simple_name(self) -> Option<&'t str> {
        Some(self.path()?.as_single_name_ref()?.text())
    }

    /// Its value.
    ///
    /// ```
    /// use rap_tree::ast::{Attr, AstNode};
    /// use rap_tree::{Edition, TopEntryPoint, Tree};
    ///
    /// let tree = Tree::of_text(Edition::CURRENT, TopEntryPoint::SourceFile, r#"#[path = "a.rs"] mod m;"#);
    /// let attr = tree.root().descendants().find_map(Attr::cast).unwrap();
    /// assert_eq!(attr.expr().unwrap().to_string(), r#""a.rs""#);
    /// ```
    #[must_use]
    pub fn expr(self) -> Option<Expr<'t>> {
        match self.inner_meta()? {
            Meta::KeyValueMeta(it) => it.expr(),
            _ => None,
        }
    }

    /// Its tokens in brackets.
    ///
    /// ```
    /// use rap_tree::ast::{AstNode, Attr};
    /// use rap_tree::{Edition, TopEntryPoint, Tree};
    ///
    /// let tree = Tree::of_text(Edition::CURRENT, TopEntryPoint::SourceFile, "#[cfg_eval] #[a(b c)] struct S;");
    /// let attr = tree.root().descendants().filter_map(Attr::cast).last().unwrap();
    /// assert_eq!(attr.token_tree().unwrap().to_string(), "(b c)");
    /// ```
    #[must_use]
    pub fn token_tree(self) -> Option<TokenTree<'t>> {
        match self.inner_meta()? {
            Meta::TokenTreeMeta(it) => it.token_tree(),
            _ => None,
        }
    }
}
