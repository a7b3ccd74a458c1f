//! A disk without room, and a real one with links on it.

use crate::file::{marks, Given, Temporary, DATA, SAVE};
use kdgate::disk::{Disk, Folder, Place};
use kdgate::held::Came;
use kdgate::model::Model;
use std::os::unix::fs::symlink;
use std::path::Path;

pub fn a_full_disk_loses_nothing() {
    let given = Given::new(4, 150_001, 32768);
    let model = Model::new(4);
    let (mut held, _) = given.held(&model);
    while held.judge_next(&model) {}
    held.take(&given.leaves()).unwrap();
    model.set_room(65536);
    let mut refused = 0;
    for block in 0..given.blocks() {
        match held.block_came(&model, block, given.block(block)) {
            Came::Taken(_) => assert!(block < 4),
            Came::NotWritten(_) => refused += 1,
            came => panic!("{came:?}"),
        }
    }
    assert_eq!((held.marked(), refused), (4, given.blocks() - 4));
    held.checkpoint(&model).unwrap();
    assert_eq!(marks(&model.durable(Path::new(SAVE)).unwrap()), [0, 1, 2, 3]);
    model.set_room(usize::MAX);
    for block in 0..given.blocks() {
        held.block_came(&model, block, given.block(block));
    }
    held.checkpoint(&model).unwrap();
    assert!(held.is_whole());
    assert_eq!(model.durable(Path::new(DATA)).unwrap(), given.bytes);
}

pub fn a_real_disk_follows_no_link() {
    let (inside, outside) = (Temporary::new("inside"), Temporary::new("outside"));
    let disk = Folder::new(inside.path()).unwrap();
    let place = |path: &str| Place::Inside(path.into());
    let data = disk.open(&place("data/a/b"), true).unwrap();
    data.write(5, b"abc").unwrap();
    data.sync().unwrap();
    let mut out = [0; 3];
    data.read(5, &mut out).unwrap();
    assert_eq!((&out, data.size().unwrap()), (b"abc", 8));
    assert!(data.read(6, &mut out).is_err(), "not all of it is there");

    std::fs::write(outside.path().join("secret"), b"secret").unwrap();
    symlink(outside.path(), inside.path().join("data/out")).unwrap();
    symlink(outside.path().join("secret"), inside.path().join("data/a/link")).unwrap();
    for path in ["data/out/secret", "data/a/link", "data/out/new", "../secret", "/etc/passwd"] {
        assert!(disk.open(&place(path), true).is_err(), "{path}");
        assert!(disk.get(Path::new(path), 100).is_err(), "{path}");
    }
    assert!(disk.put(Path::new("data/out/new"), b"x").is_err());
    assert!(!outside.path().join("new").exists());

    disk.put(Path::new("stores/1/0.kds"), b"one").unwrap();
    disk.put(Path::new("stores/1/0.kds"), b"two").unwrap();
    assert_eq!(disk.get(Path::new("stores/1/0.kds"), 3).unwrap(), b"two");
    assert!(disk.get(Path::new("stores/1/0.kds"), 2).is_err(), "more than was asked for");
    disk.link(Path::new("data/a/b"), Path::new("data/c/b")).unwrap();
    disk.link(Path::new("data/a/b"), Path::new("data/c/b")).unwrap();
    assert_eq!(disk.open(&place("data/c/b"), false).unwrap().size().unwrap(), 8);
    disk.forget(Path::new("data/a")).unwrap();
    assert_eq!(disk.open(&place("data/c/b"), false).unwrap().size().unwrap(), 8);
    assert!(disk.open(&place("data/a/b"), false).is_err());
}
