//! Texts against plain lists.
use crate::plain::Random;
use vers_vecs::error::BuildError;
use vers_vecs::text::TextIndex;

#[test]
fn patterns_are_found() {
    let mut random = Random::new(1);
    for (length, width, step) in [(0, 1, 1), (1, 16, 32), (60, 1, 3), (400, 2, 50), (400, 16, 1)] {
        let symbols = random.numbers(length, 1 << width.min(2));
        let text = TextIndex::with_step(&symbols, width, step).unwrap();
        assert_eq!((text.len(), text.is_empty()), (length, length == 0));
        assert_eq!((text.bits_per_symbol(), text.step()), (width, step));
        let patterns = (0..5).flat_map(|count| (0..20).map(move |_| count)).map(|count| random.numbers(count, 4));
        for pattern in patterns.chain([symbols.clone(), vec![u64::MAX]]) {
            let places: Vec<usize> = (0..=length).filter(|&place| symbols[place..].starts_with(&pattern)).collect();
            assert_eq!((text.count(&pattern), text.contains(&pattern)), (places.len(), !places.is_empty()));
            assert_eq!(text.clone().places(&pattern), places);
        }
        let pieces: Vec<&[u64]> = symbols.chunks(3).chain([&symbols[..], &[], &[u64::MAX]]).collect();
        let counts: Vec<usize> = pieces.iter().map(|piece| text.count(piece)).collect();
        assert_eq!(text.count_each(&pieces), counts);
        for (start, end) in
            (0..=length).step_by(29).flat_map(|start| (0..length + 2).step_by(37).map(move |end| (start, end)))
        {
            assert_eq!(text.extract(start..end).as_deref(), symbols.get(start..end));
        }
        assert!(text.heap_size() > length * usize::from(width) / 8);
    }
}

#[test]
fn some_texts_are_refused() {
    assert!(TextIndex::from_slice(&[], 0).is_err() && TextIndex::from_slice(&[0], 17).is_err());
    assert!(TextIndex::from_slice(&[4], 2).is_err() && TextIndex::with_step(&[0], 1, 0).is_err());
}

#[test]
fn bytes_and_shorts_are_the_same_text() {
    let text = TextIndex::from_bytes(b"abracadabra", 8).unwrap();
    assert_eq!((text.len(), text.bits_per_symbol(), text.step()), (11, 8, 32));
    assert_eq!(TextIndex::from_slice(&[97], 8).unwrap().step(), 32);
    assert_eq!((TextIndex::default().len(), TextIndex::default().bits_per_symbol()), (0, 8));
    assert_eq!(text.places(&[97, 98]), [0, 7]);
    let text = TextIndex::bytes_with_step(b"abracadabra", 7, 4).unwrap();
    assert_eq!((text.places(&[97, 98]), text.bits_per_symbol(), text.step()), (vec![0, 7], 7, 4));
    let text = TextIndex::from_u16s(&[300, 1, 300], 9).unwrap();
    assert_eq!((text.places(&[300]), text.bits_per_symbol(), text.step()), (vec![0, 2], 9, 32));
    let text = TextIndex::u16s_with_step(&[300, 1, 300], 16, 2).unwrap();
    assert_eq!((text.places(&[300]), text.bits_per_symbol(), text.step()), (vec![0, 2], 16, 2));
    assert_eq!(TextIndex::from_bytes(&[1, 9], 3).err(), Some(BuildError::SymbolTooWide { position: 1 }));
    assert_eq!(TextIndex::from_u16s(&[512], 9).err(), Some(BuildError::SymbolTooWide { position: 0 }));
}

#[test]
fn bytes_ask_as_numbers_do() {
    let text = TextIndex::from_bytes(b"abracadabra", 8).unwrap();
    assert_eq!((text.count_bytes(b"abra"), text.count_bytes(b"x"), text.count_bytes(b"")), (2, 0, 12));
    assert_eq!((text.places_bytes(b"a"), text.places_bytes(b"bra")), (vec![0, 3, 5, 7, 10], vec![1, 8]));
    assert_eq!(text.count_each_bytes(&["a", "", "cad", "dab!"]), [5, 12, 1, 0]);
    let owned = String::from("bra");
    assert_eq!(
        (text.count_bytes("a"), text.places_bytes(&owned), text.places_bytes(&[98u8][..])),
        (5, vec![1, 8], vec![1, 8])
    );
    assert_eq!((text.contains_bytes("cad"), text.contains_bytes(b"x"), text.contains_bytes("")), (true, false, true));
    assert_eq!((text.first_places_bytes("a", 2), text.first_places_bytes(&owned, 9)), (vec![10, 7], vec![8, 1]));
    assert_eq!(text.extract_bytes(4..8), Some(b"cada".to_vec()));
    assert_eq!((text.extract_bytes(4..12), text.extract_bytes(11..11)), (None, Some(vec![])));
    let wide = TextIndex::from_slice(&[97, 98], 9).unwrap();
    assert_eq!((wide.count_bytes(b"ab"), wide.extract_bytes(0..2)), (1, None));
}
