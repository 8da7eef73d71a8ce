//! Documents with costs against plain lists.
use crate::plain::Random;
use vers_vecs::postings::Postings;

/// Documents below a number, that ascend.
fn documents(random: &mut Random, count: usize, bound: u64) -> Vec<u64> {
    let mut documents = random.numbers(count, bound);
    documents.sort_unstable();
    documents.dedup();
    documents
}

#[test]
fn documents_are_found() {
    let mut random = Random::new(1);
    for (count, bound) in [(0, 1), (1, 10), (60, 100), (900, 1 << 50)] {
        let plain = documents(&mut random, count, bound);
        let costs = random.numbers(plain.len(), 40);
        let list = Postings::from_sorted(&plain, &costs).unwrap();
        assert_eq!((list.len(), list.is_empty()), (plain.len(), plain.is_empty()));
        for number in random.numbers(300, bound + 2).into_iter().chain(plain.iter().copied()) {
            let below = plain.partition_point(|&document| document < number);
            assert_eq!(list.contains(number), plain.contains(&number));
            assert_eq!((list.rank(number), list.next_at_least(number)), (below as u64, plain.get(below).copied()));
            let to = number.saturating_add(random.below(bound));
            let within = (0..plain.len()).filter(|&position| (number..=to).contains(&plain[position]));
            assert_eq!(
                list.cheapest(number, to),
                within.min_by_key(|&position| costs[position]).map(|position| plain[position])
            );
        }
        for position in 0..=plain.len() {
            assert_eq!(
                (list.get(position), list.cost(position)),
                (plain.get(position).copied(), costs.get(position).copied())
            );
        }
        let other = documents(&mut random, count / 2, bound);
        let common: Vec<u64> = plain.iter().copied().filter(|document| other.contains(document)).collect();
        assert_eq!(list.intersect(&Postings::from_sorted(&other, &other).unwrap()), common);
        assert_eq!((list.intersect(&list), list.clone().intersect(&list)), (plain.clone(), plain));
    }
}

#[test]
fn documents_that_do_not_ascend_are_refused() {
    assert!(Postings::from_sorted(&[1, 1], &[0, 0]).is_err());
    assert!(Postings::from_sorted(&[1, 2], &[0]).is_err());
}

#[test]
fn threads_intersect_lists_of_another() {
    let list = Postings::from_sorted(&[1, 4, 6], &[0, 0, 0]).unwrap();
    let both = std::thread::scope(|scope| scope.spawn(|| list.intersect(&list)).join().unwrap());
    assert_eq!(both, [1, 4, 6]);
}

#[test]
fn documents_are_a_copy() {
    let list = Postings::from_sorted(&[2, 5, 9], &[30, 10, 20]).unwrap();
    assert_eq!(list.documents().iter().collect::<Vec<_>>(), [2, 5, 9]);
    assert!(Postings::from_sorted(&[], &[]).unwrap().documents().is_empty());
}
