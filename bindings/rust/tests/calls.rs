//! Calls the library from safe Rust, through its wrapper.

use std::fs;
use std::thread;
use teddertempo::{
    change, change_at, change_slice, either_slice, rewrite, rewrite_slice, sites, splice_slice,
    strip, Change, ChangeOptions, Edits, Error, Options, Place, Rule,
};

/// The bytes with which each module begins: the magic and the version.
const PREAMBLE: [u8; 8] = [0x00, 0x61, 0x73, 0x6d, 0x01, 0x00, 0x00, 0x00];

fn module() -> Vec<u8> {
    module_named("numbers")
}

/// The module of that name of the tests.
fn module_named(name: &str) -> Vec<u8> {
    let modules = concat!(env!("CARGO_MANIFEST_DIR"), "/../../tests/modules");
    fs::read(format!("{modules}/{name}.wasm")).unwrap()
}

/// A module, rewritten under a seed to at most so many bytes more.
fn rewritten(module: &[u8], extra: usize, seed: u64) -> Option<Vec<u8>> {
    let mut new = module.to_vec();
    let options = Options::new().seed(seed);
    let is_rewritten = rewrite(&mut new, module.len() + extra, &options).is_ok();
    assert!(is_rewritten || new == module);
    is_rewritten.then_some(new)
}

#[test]
fn a_module_is_rewritten_within_its_room() {
    let module = module();
    let mut count = 0;
    for seed in 0..50 {
        for extra in [0, 1, 5, 64, 4096] {
            if let Some(new) = rewritten(&module, extra, seed) {
                assert!(new.len() <= module.len() + extra);
                assert!(new.starts_with(&PREAMBLE));
                count += 1;
            }
        }
    }
    assert!(count > 0);
}

#[test]
fn equal_modules_and_seeds_give_equal_bytes() {
    let module = module();
    for seed in [0, 1, 2, 3, 1 << 40, u64::MAX] {
        let first = rewritten(&module, 4096, seed);
        assert_eq!(first, rewritten(&module, 4096, seed));
        // The room matters only where it is too small.
        assert_eq!(first, rewritten(&module, 8192, seed));
    }
}

#[test]
fn a_module_is_changed_within_its_room() {
    let module = module();
    let mut others = 0;
    for seed in 0..50 {
        for extra in [0, 4096] {
            let mut new = module.clone();
            new.resize(module.len() + extra, 0);
            let options = ChangeOptions::new().seed(seed);
            let (size, _) = change_slice(&mut new, module.len(), &options).unwrap();
            assert!(size <= module.len() + extra && new.starts_with(&PREAMBLE));
            others += usize::from(new[..size] != module);
        }
    }
    assert_eq!(others, 100);
    let options = ChangeOptions::new();
    let refused = change_slice(&mut [0; 8], 8, &options);
    assert_eq!(refused, Err(Error::NotAModule(0)));
    let refused = change_slice(&mut [0; 8], 9, &options);
    assert_eq!(refused, Err(Error::BadOptions));
}

#[test]
fn either_rewrites_or_changes() {
    let module = module();
    let with_room = || {
        let mut new = module.clone();
        new.resize(module.len() + 4096, 0);
        new
    };
    for seed in 0..50 {
        let (mut kept, mut changed) = (with_room(), with_room());
        let kept_size = either_slice(&mut kept, module.len(), seed, 100);
        let changed_size = either_slice(&mut changed, module.len(), seed, 0);
        let (mut rewritten, mut other) = (with_room(), with_room());
        let options = Options::new().seed(seed);
        let by_rules = rewrite_slice(&mut rewritten, module.len(), &options);
        assert_eq!(kept_size.ok(), by_rules.ok().map(|(size, _)| size));
        let options = ChangeOptions::new().seed(seed);
        let by_changes = change_slice(&mut other, module.len(), &options);
        assert_eq!(changed_size.ok(), by_changes.ok().map(|(size, _)| size));
        assert!(kept == rewritten && changed == other);
    }
    let refused = either_slice(&mut [0; 8], 9, 7, 50);
    assert_eq!(refused, Err(Error::NothingDone));
}

#[test]
fn splices_code_of_another_module() {
    let (module, other) = (module(), module_named("hashes"));
    let mut news = std::collections::HashSet::new();
    for seed in 0..50 {
        let mut new = module.clone();
        new.resize(module.len() + 4096, 0);
        let size = match splice_slice(&mut new, module.len(), &other, seed) {
            Ok(size) => size,
            Err(_) => continue,
        };
        new.truncate(size);
        assert!(new != module && new.starts_with(&PREAMBLE));
        let mut again = module.clone();
        again.resize(module.len() + 4096, 0);
        assert_eq!(
            splice_slice(&mut again, module.len(), &other, seed),
            Ok(size)
        );
        assert_eq!(again[..size], new);
        news.insert(new);
    }
    assert!(news.len() > 30);
    let mut new = module.clone();
    let none = Err(Error::NothingDone);
    assert_eq!(splice_slice(&mut new, module.len(), &[0; 8], 7), none);
    assert_eq!(splice_slice(&mut [0; 8], 8, &other, 7), none);
    assert_eq!(splice_slice(&mut [0; 8], 9, &other, 7), none);
    assert_eq!(new, module);
}

#[test]
fn each_change_is_made_by_its_name() {
    // It has globals, calls and loads.
    let module = module_named("outside");
    assert_eq!(Change::all().count(), 14);
    assert_eq!(Change::MEMORY_ARGUMENT.name(), "memory_argument");
    for kind in Change::all() {
        let is_made = (0..100).any(|seed| {
            let options = ChangeOptions::new().change(kind).count(3).seed(seed);
            let mut new = module.clone();
            match change(&mut new, module.len() + 4096, &options) {
                Ok(edits) if edits.made == 3 => {
                    assert_eq!(edits.kind, kind);
                    assert!(new != module && new.starts_with(&PREAMBLE));
                    true
                }
                _ => false,
            }
        });
        assert!(is_made, "{kind}");
    }
}

#[test]
fn changes_are_refused_by_their_options() {
    let module = module();
    let all = ChangeOptions::new();
    for (options, max, error) in [
        (all.clone(), 0, Error::BadOptions),
        (all.clone().function(1 << 40), 4096, Error::NoFunction),
        (all.clone().function(u64::MAX), 4096, Error::NoFunction),
        (
            all.count(1 << 40).change(Change::DOUBLE),
            module.len(),
            Error::TooLarge,
        ),
    ] {
        let mut new = module.clone();
        assert_eq!(change(&mut new, max, &options), Err(error));
        assert_eq!(new, module);
    }
}

/// A function of no parameters and results: `i32.const 1; drop; i32.const 2; drop; nop; end`.
const DROPS: &[u8] = b"\0asm\x01\0\0\0\x01\x04\x01\x60\0\0\x03\x02\x01\0\
    \x0a\x0b\x01\x09\0\x41\x01\x1a\x41\x02\x1a\x01\x0b";

#[test]
fn operators_that_are_named_are_changed() {
    let all = Place::new(Change::DELETE, 0);
    for (place, made, size) in [
        (all.clone(), 3, 24),
        (all.clone().operators(..), 3, 24),
        (all.clone().operators(2..4), 1, 28),
        (all.clone().operators(..=1), 1, 28),
        (all.operators(4..5), 1, 30),
    ] {
        let mut new = DROPS.to_vec();
        let edits = change_at(&mut new, DROPS.len(), &place).unwrap();
        assert_eq!((edits.made, edits.kind), (made, Change::DELETE));
        assert_eq!(new.len(), size);
    }
}

#[test]
fn each_site_is_changed() {
    let module = module();
    let all = sites(&module, &ChangeOptions::new()).unwrap();
    assert!(all.len() > 1000 && all.iter().all(|site| site.change != Change::COPY));
    for site in all.iter().step_by(97) {
        let mut new = module.clone();
        let edits = change_at(&mut new, module.len() + 64, &site.place());
        let made = Edits {
            made: 1,
            kind: site.change,
            function: site.function,
        };
        assert_eq!(edits, Ok(made));
        assert_ne!(new, module);
    }
    let deletions = ChangeOptions::new().change(Change::DELETE);
    let deletions = sites(DROPS, &deletions).unwrap();
    let operators: Vec<u64> = deletions.iter().map(|site| site.operator).collect();
    assert_eq!(operators, [1, 3, 4]);
}

#[test]
fn listings_are_refused() {
    let other = ChangeOptions::new().function(1);
    assert_eq!(sites(DROPS, &other), Err(Error::NoFunction));
    let calls = ChangeOptions::new().change(Change::CALL);
    assert_eq!(sites(DROPS, &calls), Ok(Vec::new()));
    let refused = sites(b"no module", &ChangeOptions::new());
    assert_eq!(refused, Err(Error::NotAModule(0)));
}

#[test]
fn places_are_refused() {
    let all = Place::new(Change::DOUBLE, 0);
    for (place, max, error) in [
        (all.clone(), DROPS.len() - 1, Error::BadOptions),
        (all.clone(), DROPS.len(), Error::TooLarge),
        (all.clone().growth(0), 4096, Error::TooLarge),
        (all.clone().growth(6), 4096, Error::TooLarge),
        (all.clone().operators(5..9), 4096, Error::NothingApplies),
        (all.operators(0..0), 4096, Error::NothingApplies),
        (Place::new(Change::COPY, 0), 4096, Error::NothingApplies),
        (Place::new(Change::DOUBLE, 1), 4096, Error::NoFunction),
    ] {
        let mut new = DROPS.to_vec();
        assert_eq!(change_at(&mut new, max, &place), Err(error));
        assert_eq!(new, DROPS);
    }
}

#[test]
fn sections_on_debugging_are_dropped() {
    let mut module = DROPS.to_vec();
    assert_eq!(strip(&mut module), Ok(()));
    assert_eq!(module, DROPS);
    module.extend_from_slice(b"\0\x0c\x0b.debug_info");
    assert_eq!(strip(&mut module), Ok(()));
    assert_eq!(module, DROPS);
    let mut other = b"no module".to_vec();
    assert_eq!(strip(&mut other), Err(Error::NothingDone));
    assert_eq!(other, b"no module");
}

#[test]
fn shrinking_makes_modules_smaller() {
    let module = module_named("forms");
    let (sizes, count) = (0..20).fold((0, 0), |(sizes, count), seed| {
        let mut new = module.clone();
        let options = Options::new().seed(seed).count(20).shrink();
        let is_rewritten = rewrite(&mut new, module.len(), &options).is_ok();
        assert!(new.len() <= module.len());
        (sizes + new.len(), count + usize::from(is_rewritten))
    });
    assert!(count > 0 && sizes < 20 * module.len());
}

#[test]
fn other_bytes_are_refused() {
    for bytes in [&b""[..], b"no module", &module()[..1000]] {
        let mut new = bytes.to_vec();
        let refused = rewrite(&mut new, 4096, &Options::new());
        assert!(matches!(refused, Err(Error::NotAModule(offset)) if offset <= 1000));
        assert_eq!(new, bytes);
    }
    let mut empty = PREAMBLE.to_vec();
    let refused = rewrite(&mut empty, 4096, &Options::new().seed(1));
    assert_eq!(refused, Err(Error::NothingApplies));
    assert_eq!(empty, PREAMBLE);
}

#[test]
fn what_has_no_room_is_refused() {
    let old = module();
    let mut new = old.clone();
    for (max, error) in [
        (old.len() - 1, Error::BadOptions),
        (usize::MAX, Error::NoMemory),
    ] {
        assert_eq!(rewrite(&mut new, max, &Options::new()), Err(error));
        assert_eq!(new, old);
    }
}

#[test]
fn a_slice_is_rewritten_in_place() {
    let module = module();
    let options = Options::new().seed(3);
    let mut data = [&module[..], &[0xee; 8192]].concat();
    let (size, edits) = rewrite_slice(&mut data, module.len(), &options).unwrap();
    let mut new = module.clone();
    let in_vector = rewrite(&mut new, module.len() + 8192, &options);
    assert_eq!(in_vector, Ok(edits));
    assert_eq!(data[..size], new);
    assert!(data[size.max(module.len())..].iter().all(|&b| b == 0xee));
    // More bytes than there are.
    let refused = rewrite_slice(&mut data[..5], 6, &options);
    assert_eq!(refused, Err(Error::BadOptions));
}

/// Rewrites the module by options, under the first of some seeds that has something to rewrite.
fn by_options(options: &Options) -> Option<(Edits<Rule>, Vec<u8>)> {
    (0..20).find_map(|seed| {
        let mut module = module();
        let edits = rewrite(&mut module, 1 << 16, &options.clone().seed(seed));
        edits.ok().map(|edits| (edits, module))
    })
}

#[test]
fn options_choose_rules() {
    let mut count = 0;
    for rule in Rule::all() {
        if let Some((edits, _)) = by_options(&Options::new().rule(rule)) {
            assert_eq!(edits.kind, rule);
            count += 1;
            let (edits, _) = by_options(&Options::new().not_rule(rule)).unwrap();
            assert_ne!(edits.kind, rule);
        }
    }
    assert!(count > 1);
}

#[test]
fn options_choose_functions_and_counts() {
    let (edits, _) = by_options(&Options::new()).unwrap();
    assert_eq!(edits.made, 1);
    let function = edits.function;
    let (edits, _) = by_options(&Options::new().function(function).count(5)).unwrap();
    assert_eq!((edits.function, edits.made), (function, 5));
    let few = Options::new().function(function).percent(1);
    let (edits, _) = by_options(&few).unwrap();
    let (twice, _) = by_options(&few.percent(200)).unwrap();
    assert!(edits.made < twice.made);
    let (_, new) = by_options(&Options::new().count(2).growth(20)).unwrap();
    assert!(new.len() <= module().len() + 20);
    let (_, new) = by_options(&Options::new().growth(0)).unwrap();
    assert!(new.len() <= module().len());
}

#[test]
fn options_that_name_nothing_are_refused() {
    let mut module = module();
    let none = Rule::all().fold(Options::new(), Options::not_rule);
    for (options, error) in [
        (none, Error::BadOptions),
        (Options::new().function(1 << 40), Error::NoFunction),
        (Options::new().function(u64::MAX), Error::NoFunction),
    ] {
        assert_eq!(rewrite(&mut module, 1 << 16, &options), Err(error));
    }
}

#[test]
fn rules_have_names() {
    for rule in Rule::all() {
        assert_eq!(rule.name().parse(), Ok(rule));
        assert_eq!(rule.to_string(), rule.name());
    }
    assert!(Rule::all().count() > 1);
    assert!("melt".parse::<Rule>().is_err() && "".parse::<Rule>().is_err());
}

#[test]
fn errors_have_texts() {
    let error: Box<dyn std::error::Error> = Error::NotAModule(7).into();
    assert_eq!(error.to_string(), "no module, by its byte 7");
    assert_eq!(format!("{:>14}", Error::NoMemory), "     no memory");
}

#[test]
fn the_version_is_this_crates() {
    let parts: Vec<u32> = env!("CARGO_PKG_VERSION")
        .split('.')
        .map(|part| part.parse().unwrap())
        .collect();
    assert_eq!(
        teddertempo::version(),
        parts[0] << 16 | parts[1] << 8 | parts[2]
    );
}

#[test]
fn threads_have_their_own_buffers() {
    let module = module();
    let alone: Vec<_> = (0..8).map(|seed| rewritten(&module, 4096, seed)).collect();
    let together: Vec<_> = thread::scope(|scope| {
        let calls: Vec<_> = (0..8)
            .map(|seed| {
                let module = &module;
                scope.spawn(move || rewritten(module, 4096, seed))
            })
            .collect();
        calls.into_iter().map(|call| call.join().unwrap()).collect()
    });
    assert_eq!(alone, together);
}
