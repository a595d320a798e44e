//! EDK2's rule in the place of this machine's, for one point each: `--edk2=RULE` behind the words of a command line.
//! docs/COMPARISON.md tells the points; `compare/edk2` asks for them to explain how a boot on EDK2's cores differs.
use std::sync::OnceLock;

#[derive(Default)]
pub struct Rules {
    /// `locate` of DXE finds the interface that was installed first, and a reinstalled one counts as new.
    pub locate_first_installed: bool,
    /// A protocol's notification that is signalled while another runs is run behind it, with what is there then.
    pub notify_behind_the_running: bool,
    /// Only the PEIM that was started last may register for shadow.
    pub shadow_current_alone: bool,
    /// All second starts come right behind the move, and later ones right behind the first start.
    pub shadow_at_once: bool,
    /// A second `memory` is no fault: before the move the last one counts, behind it none does, and the core asserts.
    pub memory_again: bool,
    /// With boot mode 0x11 there are no second starts.
    pub shadow_not_on_s3: bool,
    /// Dispatch notifications are matched when no PEIM runs, notification by notification; a reinstall makes none.
    pub dispatch_by_lists: bool,
    /// Callbacks of one call go notification by notification.
    pub callbacks_by_notification: bool,
    /// All drivers that may start are scheduled at once.
    pub batch: bool,
    /// A GUID that was once there when an expression was evaluated stays there for it.
    pub push_sticky: bool,
    /// An expression of DXE that leaves values over is worth its last one.
    pub left_over_holds: bool,
    /// The drivers of a volume are discovered by type: 07, 0C, 08.
    pub types_in_turn: bool,
    /// A nested volume is reported at its file's turn in the order of its parent, as a PEIM is started, and gets an FV and an FV2 HOB.
    pub nested_in_turn: bool,
    /// `process` of an address without a volume is VolumeCorrupted.
    pub process_none_corrupted: bool,
    /// A wrong sum, or a State with another highest bit, ends PEI's search for files there, and DXE refuses the volume.
    pub file_walk: bool,
}

static RULES: OnceLock<Rules> = OnceLock::new();

pub fn rules() -> &'static Rules {
    RULES.get_or_init(Rules::default)
}

/// Takes the rules off the end of a command line; the first word that names none.
pub fn take(words: &mut Vec<String>) -> Result<(), String> {
    let mut rules = Rules::default();
    while let Some(word) = words.last().and_then(|word| word.strip_prefix("--edk2=")).map(str::to_string) {
        let rule = match word.as_str() {
            "locate-first-installed" => &mut rules.locate_first_installed,
            "notify-behind-the-running" => &mut rules.notify_behind_the_running,
            "shadow-current-alone" => &mut rules.shadow_current_alone,
            "shadow-at-once" => &mut rules.shadow_at_once,
            "memory-again" => &mut rules.memory_again,
            "shadow-not-on-s3" => &mut rules.shadow_not_on_s3,
            "dispatch-by-lists" => &mut rules.dispatch_by_lists,
            "callbacks-by-notification" => &mut rules.callbacks_by_notification,
            "batch" => &mut rules.batch,
            "push-sticky" => &mut rules.push_sticky,
            "left-over-holds" => &mut rules.left_over_holds,
            "types-in-turn" => &mut rules.types_in_turn,
            "nested-in-turn" => &mut rules.nested_in_turn,
            "process-none-corrupted" => &mut rules.process_none_corrupted,
            "file-walk" => &mut rules.file_walk,
            _ => return Err(word),
        };
        *rule = true;
        words.pop();
    }
    RULES.set(rules).map_err(|_| "twice".into())
}
