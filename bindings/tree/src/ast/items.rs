//! What the parts of items are, and their documentation.
use super::{AstChildren, AstNode, DocComment, FieldList, HasName, Path, RecordFieldList, SelfParam, Struct};
use super::{TupleFieldList, Visibility};

/// How a structure has its fields.
///
/// ```
/// use rap_tree::ast::{AstNode, Struct, StructKind};
/// use rap_tree::{Edition, TopEntryPoint, Tree};
///
/// let tree = Tree::of_text(Edition::CURRENT, TopEntryPoint::SourceFile, "struct S(u8, u8);");
/// let kind = tree.root().descendants().find_map(Struct::cast).unwrap().kind();
/// assert!(matches!(kind, StructKind::Tuple(list) if list.fields().count() == 2));
/// ```
#[derive(Clone, Copy, Debug, PartialEq, Eq, Hash)]
pub enum StructKind<'t> {
    /// Fields with names.
    Record(RecordFieldList<'t>),
    /// Fields without names.
    Tuple(TupleFieldList<'t>),
    /// No fields.
    Unit,
}

impl<'t> Struct<'t> {
    /// How it has its fields.
    ///
    /// ```
    /// use rap_tree::ast::{AstNode, Struct, StructKind};
    /// use rap_tree::{Edition, TopEntryPoint, Tree};
    ///
    /// let tree = Tree::of_text(Edition::CURRENT, TopEntryPoint::SourceFile, "struct S;");
    /// assert_eq!(tree.root().descendants().find_map(Struct::cast).unwrap().kind(), StructKind::Unit);
    /// ```
    #[must_use]
    pub fn kind(self) -> StructKind<'t> {
        match self.field_list() {
            Some(FieldList::RecordFieldList(it)) => StructKind::Record(it),
            Some(FieldList::TupleFieldList(it)) => StructKind::Tuple(it),
            None => StructKind::Unit,
        }
    }
}

/// How a method takes `self`.
///
/// ```
/// use rap_tree::ast::{AstNode, SelfParam, SelfParamKind};
/// use rap_tree::{Edition, TopEntryPoint, Tree};
///
/// let tree = Tree::of_text(Edition::CURRENT, TopEntryPoint::SourceFile, "fn f(&mut self) {}");
/// let kind = tree.root().descendants().find_map(SelfParam::cast).unwrap().kind();
/// assert_eq!(kind, SelfParamKind::MutRef);
/// ```
#[derive(Clone, Copy, Debug, PartialEq, Eq, Hash)]
pub enum SelfParamKind {
    /// `self`
    Owned,
    /// `&self`
    Ref,
    /// `&mut self`
    MutRef,
}

impl SelfParam<'_> {
    /// How `self` is taken.
    ///
    /// ```
    /// use rap_tree::ast::{AstNode, SelfParam, SelfParamKind};
    /// use rap_tree::{Edition, TopEntryPoint, Tree};
    ///
    /// let tree = Tree::of_text(Edition::CURRENT, TopEntryPoint::SourceFile, "fn f(mut self) {}");
    /// let kind = tree.root().descendants().find_map(SelfParam::cast).unwrap().kind();
    /// assert_eq!(kind, SelfParamKind::Owned);
    /// ```
    #[must_use]
    pub fn kind(self) -> SelfParamKind {
        let name = self.name().map_or(usize::MAX, |it| it.syntax().text_range().start);
        match (self.amp_token(), self.mut_token()) {
            (None, _) => SelfParamKind::Owned,
            (Some(_), Some(it)) if it.text_range().start < name => SelfParamKind::MutRef,
            (Some(_), _) => SelfParamKind::Ref,
        }
    }
}

/// Who may see something.
///
/// ```
/// use rap_tree::ast::{AstNode, Visibility, VisibilityKind};
/// use rap_tree::{Edition, TopEntryPoint, Tree};
///
/// let tree = Tree::of_text(Edition::CURRENT, TopEntryPoint::SourceFile, "pub(crate) fn f() {}");
/// let kind = tree.root().descendants().find_map(Visibility::cast).unwrap().kind();
/// assert_eq!(kind, VisibilityKind::PubCrate);
/// ```
#[derive(Clone, Copy, Debug, PartialEq, Eq, Hash)]
pub enum VisibilityKind<'t> {
    /// `pub(in a::b)`
    In(Path<'t>),
    /// `pub(crate)`
    PubCrate,
    /// `pub(super)`
    PubSuper,
    /// `pub(self)`
    PubSelf,
    /// `pub`
    Pub,
}

impl<'t> Visibility<'t> {
    /// Who may see it.
    ///
    /// ```
    /// use rap_tree::ast::{AstNode, Visibility, VisibilityKind};
    /// use rap_tree::{Edition, TopEntryPoint, Tree};
    ///
    /// let tree = Tree::of_text(Edition::CURRENT, TopEntryPoint::SourceFile, "pub(in a::b) fn f() {}");
    /// let kind = tree.root().descendants().find_map(Visibility::cast).unwrap().kind();
    /// assert!(matches!(kind, VisibilityKind::In(path) if path.to_string() == "a::b"));
    /// ```
    #[must_use]
    pub fn kind(self) -> VisibilityKind<'t> {
        let Some(path) = self.visibility_inner().and_then(|it| it.path()) else { return VisibilityKind::Pub };
        let is_in = self.visibility_inner().is_some_and(|it| it.in_token().is_some());
        match path.as_single_name_ref() {
            Some(it) if !is_in && it.crate_token().is_some() => VisibilityKind::PubCrate,
            Some(it) if !is_in && it.super_token().is_some() => VisibilityKind::PubSuper,
            Some(it) if !is_in && it.self_token().is_some() => VisibilityKind::PubSelf,
            _ => VisibilityKind::In(path),
        }
    }
}

impl<'t> DocComment<'t> {
    /// What it says, without the signs of a comment.
    ///
    /// ```
    /// use rap_tree::ast::{AstNode, DocComment};
    /// use rap_tree::{Edition, TopEntryPoint, Tree};
    ///
    /// let tree = Tree::of_text(Edition::CURRENT, TopEntryPoint::SourceFile, "/** Says all. */ fn f() {}");
    /// assert_eq!(tree.root().descendants().find_map(DocComment::cast).unwrap().doc_text(), " Says all. ");
    /// ```
    #[must_use]
    pub fn doc_text(self) -> &'t str {
        let text = self.syntax().text();
        let lines = text.strip_prefix("///").or_else(|| text.strip_prefix("//!"));
        let block = text.strip_prefix("/**").or_else(|| text.strip_prefix("/*!"));
        lines.or(block.map(|it| it.strip_suffix("*/").unwrap_or(it))).unwrap_or(text)
    }
}

impl<'t> AstChildren<'t, DocComment<'t>> {
    /// What all of them say, each on a line of its own. `None` where there are none.
    ///
    /// ```
    /// use rap_tree::ast::{AstNode, Fn, HasDocComments};
    /// use rap_tree::{Edition, TopEntryPoint, Tree};
    ///
    /// let text = "/// Says much.\n/// Does little.\nfn f() {}";
    /// let tree = Tree::of_text(Edition::CURRENT, TopEntryPoint::SourceFile, text);
    /// let function = tree.root().descendants().find_map(Fn::cast).unwrap();
    /// assert_eq!(function.doc_comments().doc_text().unwrap(), " Says much.\n Does little.");
    /// ```
    #[must_use]
    pub fn doc_text(self) -> Option<std::string::String> {
        let texts: Vec<&str> = self.map(DocComment::doc_text).collect();
        (!texts.is_empty()).then(|| texts.join("\n"))
    }
}
