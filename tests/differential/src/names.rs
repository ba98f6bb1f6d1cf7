//! Names for the symbols of large books, all different, in the texts' bytes.

use second::gen::dice::Dice;
use std::collections::HashSet;

/// How the names of a book look.
#[derive(Clone, Copy, PartialEq, Eq, Debug)]
pub enum Naming {
    /// Like those of a real tree, one after another: as long as the texts allow.
    Real,
    /// As short as can be, one after another.
    Short,
    /// Parts of one text that overlap each other.
    Overlapping,
    /// The same letters in another order, so that a sum over them tells nothing.
    Alike,
}

/// The texts of a book, and the offset and length of each name in them.
pub struct Names {
    pub texts: Vec<u8>,
    pub places: Vec<(u16, u8)>,
}

/// How names of real trees begin.
const FRONTS: [&str; 32] = [
    "ARCH_SUPPORTS_",
    "ARCH_HAS_",
    "ARCH_WANT_",
    "HAVE_ARCH_",
    "HAVE_",
    "GENERIC_",
    "USB_SERIAL_",
    "USB_GADGET_",
    "USB_",
    "NET_VENDOR_",
    "NET_SCH_",
    "NETFILTER_XT_",
    "IP_NF_",
    "SND_SOC_",
    "SND_HDA_",
    "DRM_PANEL_",
    "DRM_",
    "CRYPTO_",
    "MTD_NAND_",
    "MTD_",
    "SENSORS_",
    "REGULATOR_",
    "PINCTRL_",
    "GPIO_",
    "I2C_",
    "SPI_",
    "RTC_DRV_",
    "BACKLIGHT_",
    "VIDEO_",
    "INPUT_",
    "SCSI_",
    "DEBUG_",
];

/// What they go on with.
const WORDS: [&str; 32] = [
    "CORE", "DMA", "MMIO", "REGMAP", "TIMER", "CLOCK", "POWER", "RESET", "WATCHDOG", "PLATFORM",
    "FTDI", "CP210X", "PL2303", "BCM2835", "IMX", "OMAP", "TEGRA", "MSM", "SUNXI", "ROCKCHIP",
    "HUGEPAGE", "ATOMIC", "SYSCALL", "IRQ", "PCI", "ACPI", "SIMPLE", "GENERIC", "LEGACY", "AES",
    "SHA256", "PHY",
];

/// The letters of names, the digits last.
const LETTERS: &[u8; 37] = b"ABCDEFGHIJKLMNOPQRSTUVWXYZ_0123456789";

/// So many names in exactly so many bytes of texts.
pub fn names(dice: &mut Dice, naming: Naming, count: usize, bytes: usize) -> Names {
    let mut names = match naming {
        Naming::Real => real(dice, count, bytes),
        Naming::Short => short(count),
        Naming::Overlapping => overlapping(dice, count, bytes),
        Naming::Alike => alike(dice, count),
    };
    assert!(names.texts.len() <= bytes, "{count} names do not fit in {bytes} bytes");
    names.texts.resize(bytes, b'.');
    names
}

/// Names like those of a real tree, the first one MODULES.
fn real(dice: &mut Dice, count: usize, bytes: usize) -> Names {
    let mut names = Names { texts: Vec::new(), places: Vec::new() };
    let mut taken = HashSet::new();
    for index in 0..count {
        let (left, others) = (bytes - names.texts.len(), count - index - 1);
        let mean = left / (others + 1);
        let spread = (mean / 3).min(8);
        let length = mean - spread + dice.below(2 * spread + 1);
        let length = length.min(left - 4 * others).clamp(4, 48);
        let mut name = if index == 0 { b"MODULES".to_vec() } else { real_name(dice, length) };
        while !taken.insert(name.clone()) {
            let at = name.len() - 1 - dice.below(name.len().min(3));
            name[at] = dice.one_of(LETTERS);
            name[0] = dice.one_of(&LETTERS[..26]);
        }
        names.places.push((names.texts.len() as u16, name.len() as u8));
        names.texts.extend(name);
    }
    names
}

/// A front and words, cut to a length.
fn real_name(dice: &mut Dice, length: usize) -> Vec<u8> {
    let mut name = if length > 6 { dice.one_of(&FRONTS).as_bytes().to_vec() } else { Vec::new() };
    while name.len() < length {
        name.extend(dice.one_of(&WORDS).bytes());
        name.push(b'_');
    }
    name.truncate(length);
    name
}

/// The shortest names there are: of one letter, then of two, then of three.
fn short(count: usize) -> Names {
    let mut names = Names { texts: Vec::new(), places: Vec::new() };
    let mut number = 0;
    while names.places.len() < count {
        let name = numbered(number);
        number += 1;
        if name.iter().all(u8::is_ascii_digit) {
            continue;
        }
        names.places.push((names.texts.len() as u16, name.len() as u8));
        names.texts.extend(name);
    }
    names
}

/// The text with this number among all, the shorter ones first.
fn numbered(number: usize) -> Vec<u8> {
    let (mut left, mut length, mut many) = (number, 1, LETTERS.len());
    while left >= many {
        left -= many;
        length += 1;
        many *= LETTERS.len();
    }
    let mut name = vec![0; length];
    for letter in name.iter_mut().rev() {
        *letter = LETTERS[left % LETTERS.len()];
        left /= LETTERS.len();
    }
    name
}

/// The bytes of a name of letters in another order.
pub const ALIKE: usize = 14;

/// Names of two letters, as many of the one as of the other.
fn alike(dice: &mut Dice, count: usize) -> Names {
    let half = ALIKE as u32 / 2;
    let mut numbers: Vec<u32> =
        (0..1 << ALIKE).filter(|number: &u32| number.count_ones() == half).collect();
    dice.shuffle(&mut numbers);
    let mut names = Names { texts: Vec::new(), places: Vec::new() };
    for number in &numbers[..count] {
        names.places.push((names.texts.len() as u16, ALIKE as u8));
        names.texts.extend((0..ALIKE).map(|at| b'A' + (number >> at & 1) as u8));
    }
    names
}

/// Parts of a random text, each from 3 bytes up.
fn overlapping(dice: &mut Dice, count: usize, bytes: usize) -> Names {
    let texts: Vec<u8> = (0..bytes).map(|_| dice.one_of(&LETTERS[..27])).collect();
    let mut places = Vec::new();
    let mut taken = HashSet::new();
    for length in 3..=64 {
        for (offset, name) in texts.windows(length).enumerate() {
            if places.len() < count && taken.insert(name) {
                places.push((offset as u16, length as u8));
            }
        }
    }
    assert_eq!(places.len(), count, "{bytes} bytes have too few parts");
    dice.shuffle(&mut places);
    Names { texts, places }
}
