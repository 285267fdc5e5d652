"""Which lists of definitions there are to read: where each begins, and where it stops."""
from dataclasses import dataclass

MADE = "<!-- made by `python3 scripts/contracts.py` from the sources: change these, and run it again -->"
# the lines that a reader judges in an hour
PACE = 400


# in place of a reader, which says what reading from left to right gives: the relation that a law ties it to
INSTEAD = {
    ("cdr_core", "value_at"): ("crates/cdr_core/specs/Spelling.antt", "Spells"),
    ("giop_core", "message_of"): ("crates/giop_core/specs/Grammar.antt", "IsMessage"),
    ("giop_frames", "split"): ("crates/giop_frames/specs/Splitting.antt", "Splits"),
    ("giop_frames", "partial_of"): ("crates/giop_frames/specs/Positions.antt", "IsPartial"),
}


@dataclass(frozen=True)
class Listing:
    """A list: what it is for, where it begins, the files that it takes in (none: all), and laws that may stand for it.

    A root is a crate, and either a call with its clauses (none: all) or words of the crate."""

    title: str
    says: str
    roots: tuple[tuple[str, str | None, tuple[str, ...] | None], ...] = ()
    within: tuple[str, ...] = ()
    laws: tuple[tuple[str, str], ...] = ()


HEADLINE = (("ft_orb", "play", ("new",)),)
ENGINE = tuple(("ft_orb", f"Engine::{call}", ("once",)) for call in ("feed", "answer", "give_up"))
LISTS = [
    Listing(
        "The headline's own words",
        "From the clause `new` of `play`. `ExactlyOnce` is the heart of it, without a log or an octet: read it first.",
        HEADLINE,
        tuple("ft_orb/" + it for it in "ExactlyOnce Requests History Outputs Standing Laws".split())
        + ("ft_objects/Servants",),
    ),
    Listing(
        "Laws that make these words mean the sentence",
        "Each is ensured of the definitions above, and says a part of the headline in other words: no two performed"
        " requests have one key, a first request is performed where it asks for a call and there is room, what is"
        " refused changes nothing.",
        (
            ("ft_orb", "keys_act_once", None),
            ("ft_orb", "first_requests_act", None),
            ("ft_orb", "refused_change_nothing", None),
            ("ft_orb", "admissible_are_passed", None),
            ("ft_orb", "room_for_each_client", None),
        ),
        ("ft_orb/Laws", "ft_orb/Shares"),
    ),
    Listing(
        "Until the first performance expires",
        "What needs no premise on expirations, from the clause `now` of `Server::feed`.",
        (
            ("ft_orb", "Server::feed", ("now",)),
            ("ft_orb", "key_acts_later", ("later", "held")),
            ("ft_orb", "key_acts_once", ("once", "repeats", "first")),
            ("ft_orb", "keyless_act_now", None),
            ("ft_orb", "refused_change_nothing_now", None),
        ),
        ("ft_orb/Now", "ft_orb/NowFirsts"),
        (
            ("ft_orb", "tables_act_now"),
            ("ft_orb", "now_is_ever"),
            ("ft_orb", "repeats_answer_now"),
            ("ft_orb", "room_for_live_clients"),
        ),
    ),
    Listing(
        "Premises",
        "What is asked of a servant, of a catalogue, and of the requests that arrive; and how a wire and a clock are"
        " believed: where they say what they did, and only there.",
        (
            ("ft_objects", None, ("IsServant", "IsOffer")),
            ("ft_orb", None, ("OneExpiration", "IfKnown", "act_of_read", "act_of_write")),
        ),
        ("ft_objects/", "ft_orb/"),
    ),
    Listing(
        "Answers as messages",
        "What a request is offered, and what a Reply says.",
        HEADLINE,
        ("ft_objects/", "ft_orb/"),
        (("ft_orb", "replies_have_one_body"),),
    ),
    Listing("Keys and outcomes", "What a key is, and what is kept under it.", HEADLINE, ("ft_log/",)),
    Listing(
        "Connections",
        "What a server hears of a stream, and how the stream ends (`heard`, `ending`).",
        HEADLINE,
        ("giop_link/",),
        tuple(("giop_link", law) for law in ("messages_are_heard", "streams_are_heard", "meanings_are_by_kind")),
    ),
    Listing(
        "Streams",
        "The messages of a stream, and its first fault.",
        HEADLINE,
        ("giop_frames/",),
        tuple(("giop_frames", law) for law in ("streams_are_frames", "looking_back_is_by_positions", "streams_grow")),
    ),
    Listing(
        "Writing",
        "How messages and values are written. What is written is read again as the same: the laws may stand for it.",
        HEADLINE,
        ("giop_core/Written", "giop_core/Items", "cdr_core/Writing"),
        tuple((crate, "written_is_read") for crate in ("giop_core", "cdr_core"))
        + (("giop_link", "written_messages_are_heard"),),
    ),
    Listing(
        "Messages",
        "The grammar of messages, and of references in their targets.",
        HEADLINE,
        ("giop_core/", "ior_core/"),
        (("giop_core", "messages_are_spelled"), ("giop_core", "ft_is_spelled"), ("ior_core", "profiles_are_spelled")),
    ),
    Listing(
        "Values",
        "How octets spell a value of a type.",
        HEADLINE,
        ("cdr_core/",),
        (("cdr_core", "read_is_spelled"), ("cdr_core", "spelled_is_read"), ("cdr_core", "one_front")),
    ),
    Listing(
        "Arrivals and renderings",
        "From the clause `table` of `play`: each event writes the answers of a server with a log that forgets.",
        (("ft_orb", "play", ("table",)),),
        (),
        (("ft_orb", "tables_act_once"), ("ft_orb", "exactly_once")),
    ),
    Listing(
        "Answered once",
        "From the clauses `once` of `Engine::feed`, `answer` and `give_up`.",
        ENGINE,
        (),
        (("ft_orb", "owners_answer_once"), ("ft_orb", "owners_answer_firsts"), ("ft_orb", "answers_have_a_rule")),
    ),
    Listing(
        "Where calls are declined",
        "What stands of a past in which an engine's owner declined calls, with each key by itself. `Withdrawing` has it"
        " without an event or an engine: read it first.",
        (("ft_orb", "requests_stand_once", None),),
        ("ft_orb/Withdrawing", "ft_orb/Declined"),
        (("ft_orb", "owners_may_withdraw"),),
    ),
    Listing(
        "Answered later",
        "From the clauses `run` and `new` of `play_deeds`. `Deeds` has what an owner does, and what it is told: read it"
        " first.",
        (("ft_orb", "play_deeds", ("run", "new")),),
        (),
        (("ft_orb", "runs_are_answered_late"), ("ft_orb", "known_grows"), ("ft_orb", "waiters_are_told_once"),
         ("ft_orb", "deeds_are_written_by_all")),
    ),
    Listing(
        "Over a wire",
        "From the clauses `table` of `serve_stream` and `serve_engine`.",
        (("ft_orb", "serve_stream", ("table",)), ("ft_orb", "serve_engine", ("table",))),
    ),
    Listing(
        "Both ends",
        "From the clauses `given` and `once` of `both_ends`; `ActsOnce` says what holds of clients and a server.",
        (("ft_ends", "both_ends", ("given", "once")),),
        (),
        (("ft_ends", "both_ends_act_once"),),
    ),
    Listing(
        "Over restarts",
        "From the law `lives_act_once` over lives and one store, what `refused_are_free` and `commits_are_serial` add to it,"
        " and the clause `once` of `perform_once`. `Lives`, `Stores` and `Owned` have the premises, `Together` the law.",
        (
            ("ft_lives", "lives_act_once", None),
            ("ft_lives", "refused_are_free", None),
            ("ft_lives", "commits_are_serial", None),
            ("ft_lives", "perform_once", ("once",)),
        ),
        (),
        (("ft_lives", "lives_act_once"), ("ft_lives", "commits_were_admitted"), ("ft_lives", "replies_are_held"),
         ("ft_lives", "refused_are_free"), ("ft_lives", "commits_are_serial"), ("ft_lives", "once_is_owned")),
    ),
    Listing(
        "The layer models",
        "What is left of the clauses of `read` and `write`, `read_ior`, `read_message`, `Assembler::feed`, `Log::find`"
        " and `keep`, and of what a client hears.",
        (
            ("cdr_core", "read", None),
            ("cdr_core", "write", None),
            ("ior_core", "read_ior", None),
            ("giop_core", "read_message", None),
            ("giop_frames", "Assembler::feed", None),
            ("giop_link", None, ("client_heard", "client_ending")),
            ("ft_log", "Log::find", None),
            ("ft_log", "Log::keep", None),
        ),
    ),
]
# so many of them are the headline's, layer by layer
LAYERS = 11
# from the top down
FLOORS = [
    "ft_lives", "ft_ends", "ft_client", "ft_orb", "ft_objects", "ft_log", "giop_link", "giop_frames", "giop_core", "ior_core",
    "cdr_core",
]
