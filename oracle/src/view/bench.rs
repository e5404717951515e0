//! Timings of outlines on random sites of 2000 by 2000, from posts in the open: with the test of the
//! tables, and without it, beside the Rust as published, one thread on either side; and in mode 1 beside
//! ours in mode 0.

use crate::lent::{Cone, Drawing, Entries, INNER, Lent, Work, room_for};
use crate::scene::given::{self, Given};
use crate::sites::Plan;
use crate::util::arena;
use crate::util::rng::SplitMix64;
use crate::util::timing::{Bench, Limit, Sides, TIED};
use plain::{Scene, SceneConfig, Vec2, ViewCone, VisibilityOptions, compute_visibility};
use std::cell::RefCell;
use std::f64::consts::{FRAC_PI_2, TAU};

const SIZES: [usize; 4] = [100, 500, 2_000, 4_096];
const SIDE: f64 = 2_000.0;
const POSTS: usize = 16;
const TOLERANCE: f64 = 0.1;
const LIMIT: Limit = Limit::Times(1.2);

const RANGES: [f64; 3] = [100.0, 300.0, 1_000.0];

pub fn bench(table: &mut Bench) {
    let sites = sites();
    let mut full = Vec::new();
    each(&sites, |what, views| {
        views.rows(table, what);
        if views.fov > TAU {
            full.push(views);
        }
    });
    let (smallest, largest) = (&full[..RANGES.len()], &full[full.len() - RANGES.len()..]);
    for ((range, small), large) in RANGES.iter().zip(smallest).zip(largest) {
        let (first, last) = (SIZES[0], SIZES[SIZES.len() - 1]);
        table.add_growth(
            &format!(
                "growth of an outline without the table test, {first} to {last} polygons, range {range}, full"
            ),
            small,
            large,
        );
    }
}

/// The sites, by the Rust and as ours are lent.
pub fn sites() -> [(Scene, Lent); SIZES.len()] {
    SIZES.map(|polygons| {
        let config = SceneConfig {
            width: SIDE,
            height: SIDE,
            polygon_count: polygons,
            seed: 0x5EED,
        };
        let scene = Scene::random(&config);
        let plan = plan(&scene);
        let given = Given::new(&plan);
        let mut site = Lent::blank(given::rooms(&given::of_scene(&plan.scene())));
        assert!(
            site.build(given.size, &given.points, &given.lens) == 0,
            "a site of ours"
        );
        (scene, site)
    })
}

/// What each row is called, and its views.
pub fn each<'a>(sites: &'a [(Scene, Lent)], mut row: impl FnMut(&str, Views<'a>)) {
    let r = &mut SplitMix64::new(2_001);
    for (scene, site) in sites {
        for range in RANGES {
            for (what, fov) in [("full", 7.0), ("90 degrees", FRAC_PI_2)] {
                let polygons = scene.polygons().len();
                let what = format!("{polygons} polygons, range {range}, {what}");
                row(&what, Views::new(r, scene, site, range, fov));
            }
        }
    }
}

/// The plan of a site of the Rust's.
fn plan(scene: &Scene) -> Plan {
    let ring = |id: usize| {
        scene
            .polygon_vertices(id as u32)
            .iter()
            .map(|v| (v.x, v.y))
            .collect()
    };
    Plan {
        size: (SIDE, SIDE),
        rings: (0..scene.polygons().len()).map(ring).collect(),
    }
}

/// Views of one site, from posts in the open, and the room for them in either mode.
pub struct Views<'a> {
    scene: &'a Scene,
    site: &'a Lent,
    range: f64,
    fov: f64,
    pub posts: Vec<[f64; 3]>,
    rooms: [(Entries, RefCell<Work>); 2],
}

impl<'a> Views<'a> {
    fn new(r: &mut SplitMix64, scene: &'a Scene, site: &'a Lent, range: f64, fov: f64) -> Self {
        let mut posts: Vec<[f64; 3]> = Vec::new();
        while posts.len() < POSTS {
            let (x, y) = (r.between(0.0, SIDE), r.between(0.0, SIDE));
            if scene.polygon_at(Vec2::new(x, y)).is_none() {
                posts.push([x, y, r.between(-3.0, 3.0)]);
            }
        }
        // The room is cleared as far as it is lent, so no more is lent than is needed.
        let rooms = [0, 1].map(|mode| {
            let (needs, points, ids) = needs(scene, &posts, range, fov, mode);
            let (floats, words) = room_for(needs);
            let work = Work {
                marks: vec![0; scene.polygons().len()],
                epoch: 0,
                floats: vec![0.0; floats],
                words: vec![0; words],
                outline: vec![0.0; points],
                visible: vec![0; ids],
            };
            (needs, RefCell::new(work))
        });
        Self {
            scene,
            site,
            range,
            fov,
            posts,
            rooms,
        }
    }

    fn cone(&self, [x, y, direction]: [f64; 3]) -> Cone {
        Cone {
            post: (x, y),
            range: self.range,
            direction,
            fov: self.fov,
        }
    }

    /// Ours without the test of the tables.
    fn inner(&self, mode: u32, post: [f64; 3]) -> u64 {
        self.by(INNER, mode, post)[2]
    }

    /// The same by a function of any build.
    pub fn by(&self, f: Drawing, mode: u32, post: [f64; 3]) -> [u64; 9] {
        let (needs, work) = &self.rooms[mode as usize];
        let (status, answer) = self.site.draw(
            f,
            self.cone(post),
            TOLERANCE,
            mode,
            *needs,
            &mut work.borrow_mut(),
        );
        assert!(status == 0, "room enough");
        answer
    }

    /// Ours with it.
    fn tested(&self, post: [f64; 3]) -> u64 {
        let (needs, work) = &self.rooms[0];
        self.site
            .outline(
                self.cone(post),
                TOLERANCE,
                0,
                *needs,
                &mut work.borrow_mut(),
            )
            .1[2]
    }

    /// The Rust as published.
    fn published(&self, [x, y, direction]: [f64; 3]) -> u64 {
        let v = compute_visibility(
            self.scene,
            &ViewCone::sector(Vec2::new(x, y), self.range, direction, self.fov),
            &VisibilityOptions::default(),
        );
        v.polygon.len() as u64
    }

    fn rows(&self, table: &mut Bench, what: &str) {
        table.add_few(
            &format!("outline without the table test, {what}"),
            LIMIT,
            &self.posts,
            |p| self.inner(0, p),
            |p| self.published(p),
        );
        table.add_few(
            &format!(
                "outline in mode 1 without the table test, with ours in mode 0 in the Rust's place, {what}"
            ),
            TIED,
            &self.posts,
            |p| self.inner(1, p),
            |p| self.inner(0, p),
        );
        // The Rust allocates its lists, ours are lent: on small sites that is some of its time.
        if self.fov > TAU {
            table.add_few(
                &format!("outline without the table test, the Rust's allocation free, {what}"),
                Limit::None,
                &self.posts,
                |p| self.inner(0, p),
                |p| arena::free(|| self.published(p)),
            );
        }
        table.add_few(
            &format!("outline, {what}"),
            Limit::None,
            &self.posts,
            |p| self.tested(p),
            |p| self.published(p),
        );
    }
}

impl Sides<[f64; 3]> for Views<'_> {
    fn inputs(&self) -> &[[f64; 3]] {
        &self.posts
    }

    fn ours(&self, post: [f64; 3]) -> u64 {
        self.inner(0, post)
    }

    fn rust(&self, post: [f64; 3]) -> u64 {
        self.published(post)
    }
}

/// The greatest needs of the views, by the oracle's seams; numbers of the outline; visible ids.
fn needs(
    scene: &Scene,
    posts: &[[f64; 3]],
    range: f64,
    fov: f64,
    mode: u32,
) -> (Entries, usize, usize) {
    let theirs = plan(scene).scene();
    let (mut most, mut points, mut ids) = ([1; 9], 0, 0);
    for &[x, y, direction] in posts {
        let c = Cone {
            post: (x, y),
            range,
            direction,
            fov,
        };
        let marks = vec![0; scene.polygons().len()];
        let seen = super::rust(&theirs, c, TOLERANCE, mode, &marks, 0);
        for (most, need) in most.iter_mut().zip(seen.needs) {
            *most = need.max(*most);
        }
        points = seen.outline.len().max(points);
        ids = seen.visible.len().max(ids);
    }
    (most, points, ids)
}
