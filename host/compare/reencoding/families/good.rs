//! Small templates with their samples, one of each kind. All have bytes after the data, so that a group may be made longer.
use super::templates::Template;
use crate::random::Random;

pub fn all() -> Vec<Template> {
    vec![none(), mono(), direct(), groups()]
}

fn with_tail(mut template: Template) -> Template {
    template.file.gap = vec![9; 4];
    template.file.tail = vec![0xA5; 20];
    template
}

fn random() -> Random {
    Random::new(20_261_115)
}

pub fn none() -> Template {
    with_tail(Template::of(16, 0, &[(2, 0)], &mut random()))
}

pub fn mono() -> Template {
    with_tail(Template::of(16, 3, &[(2, 0)], &mut random()))
}

pub fn direct() -> Template {
    with_tail(Template::of(24, 5, &[(3, 0), (-2, 0)], &mut random()))
}

pub fn mid_side() -> Template {
    with_tail(Template::of(16, 7, &[(-3, 1), (2, 1)], &mut random()))
}

/// Mid/side after direct, with a second block of other flags.
pub fn groups() -> Template {
    let forms = |group| if group == 0 { vec![(-2, 0), (3, 1)] } else { vec![(2, 1), (-1, 0)] };
    with_tail(Template::new(16, 516, forms, &mut random()))
}

pub fn mono_groups() -> Template {
    with_tail(Template::of(24, 514, &[(-2, 0)], &mut random()))
}
