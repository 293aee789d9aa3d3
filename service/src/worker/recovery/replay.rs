//! Posts of the journal that go into a book again. Posts of one sender go in together if they can: no series has points
//! of two senders, so only the order within a sender matters.

use super::super::numbers::Numbers;
use crate::book::{Read, Refused, SharedBook};
use crate::journal::{Body, Points, Post};
use ahash::AHashMap;

/// The most points of posts that go in together, so that no call takes long.
const MOST_POINTS: usize = 1000;

/// Consecutive posts of one sender, joined into one.
pub struct ReplayBatch {
    pub sender: String,
    /// How many of their points were foreign.
    pub foreign: u64,
    /// The error says why they can't be read by number.
    read: Result<Read, Refused>,
    /// The result of parsing.
    said: Result<(), Refused>,
    /// The posts, if there are several.
    each: Vec<Post>,
}

/// Collects posts in their order, into groups that go in together.
pub struct Groups<'c> {
    shared_book: &'c SharedBook,
    all: Vec<Group>,
    /// The last group of each sender.
    last: AHashMap<String, usize>,
}

/// Posts of one sender that go in together.
#[derive(Default)]
struct Group {
    posts: Vec<Post>,
    points: usize,
    /// The window of all its points; none if nothing may be joined to it.
    stretch: Option<u64>,
    refused: Option<Refused>,
}

impl Groups<'_> {
    pub fn new(shared_book: &SharedBook) -> Groups<'_> {
        Groups { shared_book, all: Vec::new(), last: AHashMap::new() }
    }

    /// Adds a post that has the book's numbers, or the reason why it has none.
    pub fn push(&mut self, post: Post, numbered: Result<(), Refused>) {
        let refused = numbered.err();
        let points = match &post.body {
            Body::Points(points) if refused.is_none() => Some(points),
            _ => None,
        };
        let stretch = points.and_then(|points| self.shared_book.window_of(points));
        let points = points.map_or(0, Points::count);
        let last = self.last.get(&post.sender).and_then(|last| self.all.get_mut(*last));
        match last.filter(|last| last.takes(stretch, points)) {
            Some(last) => {
                last.points += points;
                last.posts.push(post);
            }
            None => {
                match self.last.get_mut(&post.sender) {
                    Some(last) => *last = self.all.len(),
                    None => drop(self.last.insert(post.sender.clone(), self.all.len())),
                }
                self.all.push(Group { posts: vec![post], points, stretch, refused });
            }
        }
    }

    pub fn into_again(self, numbers: &Numbers) -> impl Iterator<Item = ReplayBatch> + use<'_> {
        self.all.into_iter().map(|group| ReplayBatch::of(group, numbers))
    }
}

impl Group {
    fn takes(&self, stretch: Option<u64>, points: usize) -> bool {
        stretch.is_some() && self.stretch == stretch && self.points + points <= MOST_POINTS
    }
}

impl ReplayBatch {
    fn of(group: Group, numbers: &Numbers) -> ReplayBatch {
        let Group { mut posts, refused, points, .. } = group;
        let (sender, foreign) = (posts[0].sender.clone(), posts.iter().map(|post| post.foreign).sum());
        let one = match posts.len() {
            1 => posts.remove(0),
            _ => Post { sender: sender.clone(), foreign, body: Body::Points(joined(&posts, points)) },
        };
        let read = refused.map_or_else(|| numbers.unread(one), Err);
        ReplayBatch { sender, foreign, read, said: Ok(()), each: posts }
    }

    pub fn parse(&mut self) {
        if let Ok(read) = &mut self.read {
            self.said = read.parse();
        }
    }

    /// The parsed post.
    pub fn as_read(&mut self) -> Result<&mut Read, Refused> {
        self.said?;
        self.read.as_mut().map_err(|refused| *refused)
    }

    /// The parsed post, after the book has taken it.
    pub fn was_read(&self) -> Result<&Read, Refused> {
        self.read.as_ref().map_err(|refused| *refused)
    }

    /// Whether as many of its points are foreign as before.
    pub fn has_all(&mut self) -> bool {
        let foreign = self.foreign;
        self.as_read().is_ok_and(|read| read.post.foreign == foreign)
    }

    /// How many posts it consists of.
    pub fn posts(&self) -> usize {
        self.each.len().max(1)
    }

    /// The posts, if there are several.
    pub fn each_post(&self) -> &[Post] {
        &self.each
    }

    /// Each post by itself, not yet parsed, if there are several.
    pub fn each(self) -> impl Iterator<Item = ReplayBatch> {
        let ReplayBatch { read, each, .. } = self;
        each.into_iter().map(move |post| {
            let (sender, foreign) = (post.sender.clone(), post.foreign);
            let read = read.as_ref().map(|read| read.beside(post)).map_err(|refused| *refused);
            ReplayBatch { sender, foreign, read, said: Ok(()), each: Vec::new() }
        })
    }
}

/// The points of these posts, one after the other.
fn joined(posts: &[Post], count: usize) -> Points {
    let points = || {
        posts.iter().filter_map(|post| match &post.body {
            Body::Points(points) => Some(points),
            Body::Text(_) => None,
        })
    };
    let mut all = Points::with_room(points().map(|points| points.words().len()).sum(), count);
    points().for_each(|points| all.append(points));
    all
}

#[cfg(test)]
mod tests {
    use super::*;
    use crate::journal::OfRun;

    const HOUR: u64 = 3_600_000_000_000;

    fn post(sender: &str, ends: &[u64], foreign: u64) -> Post {
        let mut points = Points::default();
        for end in ends {
            points.push(7, end - 1, *end, [1]);
        }
        Post { sender: sender.into(), foreign, body: Body::Points(points) }
    }

    /// The sender of each group, and the first end of each of its posts.
    fn groups(posts: Vec<(Post, Result<(), Refused>)>) -> Vec<(String, Vec<u64>)> {
        let shared_book = SharedBook::new(1).unwrap();
        let mut groups = Groups::new(&shared_book);
        posts.into_iter().for_each(|(post, numbered)| groups.push(post, numbered));
        let first = |post: &Post| match &post.body {
            Body::Points(points) => points.each().next().unwrap()[2],
            Body::Text(_) => 0,
        };
        let of = |group: Group| (group.posts[0].sender.clone(), group.posts.iter().map(first).collect());
        groups.all.into_iter().map(of).collect()
    }

    #[test]
    fn what_a_sender_posted_in_one_hour_goes_together_in_its_order() {
        let text = Post { sender: "a".into(), foreign: 0, body: Body::Text("{}".into()) };
        let posts = [
            (post("a", &[10], 0), Ok(())),
            (post("b", &[20], 0), Ok(())),
            (post("a", &[30, HOUR], 0), Ok(())),
            (post("a", &[HOUR, HOUR + 1], 0), Ok(())),
            (post("a", &[50], 0), Ok(())),
            (post("a", &[60], 0), Err(Refused::NoSuch)),
            (post("b", &[70], 0), Ok(())),
            (post("a", &[80], 0), Ok(())),
            (text, Ok(())),
            (post("a", &[90], 0), Ok(())),
            (post("b", &[HOUR + 2], 0), Ok(())),
            (post("b", &[HOUR + 3], 0), Ok(())),
        ];
        let wanted: [(&str, &[u64]); 9] = [
            ("a", &[10, 30]),
            ("b", &[20, 70]),
            ("a", &[HOUR]),
            ("a", &[50]),
            ("a", &[60]),
            ("a", &[80]),
            ("a", &[0]),
            ("a", &[90]),
            ("b", &[HOUR + 2, HOUR + 3]),
        ];
        let wanted = wanted.map(|(sender, ends)| (sender.to_string(), ends.to_vec()));
        assert_eq!(groups(posts.into()), wanted);
    }

    #[test]
    fn no_more_points_go_together_than_take_long() {
        let ends = |number: usize| vec![10 * number as u64; 300];
        let posts = (1..=7).map(|number| (post("a", &ends(number), 0), Ok(())));
        let found = groups(posts.collect());
        assert_eq!(found.iter().map(|(_, posts)| posts.len()).collect::<Vec<_>>(), [3, 3, 1]);
    }

    #[test]
    fn points_that_go_together_keep_what_they_say_of_runs() {
        let mut posts = [post("a", &[10, 20], 1), post("a", &[30], 2), post("a", &[40, 50], 0)];
        let began = OfRun::Began(3);
        for (post, place) in [(0, 1), (2, 0), (2, 1)] {
            if let Body::Points(points) = &mut posts[post].body {
                points.put_run(place, began.clone());
            }
        }
        let all = joined(&posts, 5);
        assert_eq!(all.each().map(|point| point[2]).collect::<Vec<_>>(), [10, 20, 30, 40, 50]);
        assert_eq!(all.runs(), [1, 3, 4].map(|place| (place, began.clone())));
    }
}
