//! One call of the rename, and what is found out about it. Each thing is looked up once, and only if it is asked for.

use super::parts::Parts;
use crate::model::check::broken_rules;
use crate::model::image::Image;
use crate::model::request::Request;
use crate::model::walk::{walk, Role, Walk};
use std::cell::OnceCell;

pub struct Call<'a> {
    pub bytes: &'a [u8],
    /// Nothing where the layout is bad.
    pub image: Option<&'a Image<'a>>,
    pub request: &'a Request,
    pub plan_len: usize,
    broken: OnceCell<Vec<u8>>,
    old: OnceCell<Option<Walk>>,
    new: OnceCell<Option<Walk>>,
    parts: OnceCell<Option<Parts<'a>>>,
}

impl<'a> Call<'a> {
    pub fn new(bytes: &'a [u8], image: Option<&'a Image<'a>>, request: &'a Request, plan_len: usize) -> Call<'a> {
        let (broken, old, new, parts) = Default::default();
        Call { bytes, image, request, plan_len, broken, old, new, parts }
    }

    /// The rules that the image breaks.
    pub fn broken_rules(&self) -> &[u8] {
        self.broken.get_or_init(|| broken_rules(self.bytes))
    }

    /// Old's walk, also where the request is wrong. Only consistent images are walked through.
    pub fn old(&self) -> Option<&Walk> {
        self.old.get_or_init(|| self.walk(Role::Old)).as_ref()
    }

    /// New's walk, also where old's is refused.
    pub fn new_walk(&self) -> Option<&Walk> {
        self.new.get_or_init(|| self.walk(Role::New)).as_ref()
    }

    fn walk(&self, role: Role) -> Option<Walk> {
        let image = self.image.filter(|_| self.broken_rules().is_empty())?;
        Some(walk(image, self.request, role))
    }

    /// What both walks lead to; nothing where one of them is refused.
    pub fn parts(&self) -> Option<&Parts<'a>> {
        self.parts.get_or_init(|| self.find_parts()).as_ref()
    }

    fn find_parts(&self) -> Option<Parts<'a>> {
        let old = self.old()?.end.clone().ok()?;
        let new = self.new_walk()?.end.clone().ok()?;
        Parts::new(self.image?, self.request, [old, new])
    }
}
