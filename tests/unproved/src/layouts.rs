//! The words of the table of layouts.
use inorder::history::Source;
use instructions::Half;
use ruu_words::{
    InfoWord, LinkWord, OperandState, OperandWord, Place, StationState, StationWord, word_count,
};

#[test]
fn words_are_those_of_the_layout(rt: HostRuntime) {
    let words = [
        (2, StationState::Open, 0, 0x0000_0021_0000_0000),
        (1, StationState::Done, 5, 0x0000_0014_0000_0005),
        (268_435_455, StationState::Free, 0, 0xffff_fff0_0000_0000),
    ];
    for (tag, state, value, word) in words {
        let fields = StationWord { tag, state, value };
        assert_eq!(rt; fields.pack(), word);
        let read = StationWord::unpack(word);
        assert_eq!(rt;
            (read.tag, read.state.code(), read.value),
            (tag, state.code(), value)
        );
    }
}

#[test]
fn other_words_are_those_of_the_layout(rt: HostRuntime) {
    let link = LinkWord {
        producer: 1,
        consumer: 1,
    };
    assert_eq!(rt; link.pack(), 0x0000_0010_0000_0100);
    let read = LinkWord::unpack(0x0000_0010_0000_0100).map(|it| (it.producer, it.consumer));
    assert_eq!(rt; read, Some((1, 1)));
    assert!(rt; LinkWord::unpack(0).is_none());
    let infos = [
        (Half::Low, 1, 0x0040_0008, 0x0000_0001_0040_0008),
        (Half::High, 1, 0x0040_0008, 0x8000_0001_0040_0008),
        (Half::High, 0x7fff_ffff, 0xffff_ffff, 0xffff_ffff_ffff_ffff),
    ];
    for (half, index, predicted, word) in infos {
        let info = InfoWord {
            half,
            index,
            predicted,
        };
        assert_eq!(rt; info.pack(), word);
        let read = InfoWord::unpack(word);
        assert_eq!(rt;
            (read.half == half, read.index, read.predicted),
            (true, index, predicted)
        );
    }
    let operand = OperandWord {
        tag: 2,
        state: OperandState::Val,
        value: 7,
    };
    assert_eq!(rt; operand.pack(), 0x0000_0022_0000_0007);
    let read = OperandWord::unpack(0x0000_0022_0000_0007);
    assert_eq!(rt; (read.tag, read.value), (2, 7));
    assert!(rt; matches!(read.state, OperandState::Val));
}

#[test]
fn words_stand_at_their_places(rt: HostRuntime) {
    let places = [
        (Place::Station(3), 3),
        (Place::Info(3), 7),
        (Place::Operand(3, Source::Second), 15),
        (Place::Link(3, 3, Source::Second), 47),
    ];
    for (place, index) in places {
        assert_eq!(rt; place.index(4), index);
    }
    assert_eq!(rt; word_count(4), 48);
    let left = StationWord {
        tag: 1,
        state: StationState::Stop,
        value: 0,
    }
    .left(7);
    assert_eq!(rt; left.pack(), 0x0000_0020_0000_0007);
}
