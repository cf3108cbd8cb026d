"""Which definitions say how something is computed, and what of them may be named where something is meant: for checks/meaning, which
says what the two lists are, and for checks/reading, which counts by them."""
import os

from contracts import crate_of, is_computing

TIED = {
    ("bvlc_npdu", "incoming_at"): "bvlc_npdu::unwrap",
    ("apdu_frame", "apdu_of"): "apdu_frame::read_apdu",
    ("event_services", "acknowledge_request_of"): "event_services::read_ack",
    ("event_services", "information_request_of"): "event_services::read_information_request",
    ("property_services", "read_property_of"): "property_services::read_read_property",
    ("property_services", "write_property_of"): "property_services::read_write_property",
    ("property_services", "read_range_of"): "property_services::read_read_range",
    ("property_services", "who_is_of"): "property_services::read_who_is",
    ("summaries", "enrollment_request_of"): "summaries::read_enrollment_request",
    ("summaries", "groups_of"): "summaries::read_many_request",
    ("list_binding", "list_request_of"): "list_binding::read_list_request",
    ("list_binding", "edit_of"): "list_binding::edit",
    ("alarm_core", "first_state"): "alarm_core::Core::start",
    ("alarm_core", "next_notes"): "alarm_core::stands_for_its_history",
    ("alarm_core", "next_sends"): "alarm_core::stands_for_its_history",
    ("alarm_core", "next_state"): "alarm_core::stands_for_its_history",
    ("alarm_core", "next_transitions"): "alarm_core::stands_for_its_history",
}

BESIDE = {
    "bac_tags::read_octets: exact": "found and only of each reader, which alone name it",
    "bac_tags::read_value: only": "found, truncated, wrong_tag, bad_length and no_memory of the same call",
    "bac_tags::or_invalid: exact": "invalid of required_unsigned, optional_unsigned and their like",
    "bac_tags::required: exact": "missing and invalid of required_unsigned and required_object",
    "bac_tags::optional: exact": "found, only and invalid of optional_unsigned and optional_object",
    "bac_tags::nothing_follows: exact": "too_many of read_ack, of event_services, and its like",
    "bac_tags::reads_back: *": "found and only of each reader",
    "event_machine::Alarm::acknowledge: acknowledged": "course of the same call",
    "event_machine::begin: begun": "course of the same call",
    "event_machine::evaluate: alarm, moves, first": "course and course_moves of the same call",
    "event_machine::is_still: still": "course of the same call",
    "event_machine::is_settled: settled": "law of looks_are_skipped",
    "event_services::read_notification: only": "found, refused, missing and no_memory of the same call",
    "event_services::reads_back: notification": "found and only of read_notification",
    "recipients::written_peers_are_read: read": "found and only of read_recipient",
    "state_codec::take_octet: exact": "the octets in front, the highest first, as written of put_octet_count, put_count, put_word and put_long says",
    "state_codec::take_octets: exact": "the octets in front, the highest first, as written of put_octet_count, put_count, put_word and put_long says",
    "state_codec::take_u16: exact": "the octets in front, the highest first, as written of put_octet_count, put_count, put_word and put_long says",
    "state_codec::take_u32: exact": "the octets in front, the highest first, as written of put_octet_count, put_count, put_word and put_long says",
    "state_codec::take_u64: exact": "the octets in front, the highest first, as written of put_octet_count, put_count, put_word and put_long says",
}


def file_of(path):
    """A file of specs/ by its crate and its name."""
    return crate_of(path), os.path.basename(path).removesuffix(".antt")
