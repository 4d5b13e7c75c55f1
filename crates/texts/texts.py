#!/usr/bin/env python3
"""Texts and what they mean, written as theorems that the definitions of crates grammar and reading meet by computation.

texts.py           writes specs/Faults.antt, Refusals.antt, Charts.antt and Calls.antt
texts.py --check   tells whether they hold what would be written

What is expected here was not computed by the definitions: it was worked out from document 02 by hand or by another reader."""
import os
import sys
import textwrap

here = os.path.join(os.path.dirname(os.path.abspath(__file__)), "specs")
ROOT = '<scxml xmlns="http://www.w3.org/2005/07/scxml" version="1.0"'

# name: the text, the offset of its fault
FAULTS = {
    "grammar_first": ("<scxml><state/><bad/></scxml>", 16),
    "least_fault": ("<scxml><state id='a'><transition target='q'/></state><state/></scxml>", 41),
    "empty": ("", 0),
    "unclosed": ("<scxml><state id='a'/>", 22),
    "byte_order_mark": ("ï<scxml/>", 0),
    "zero_byte": ("<scxml>\x00</scxml>", 7),
    "declaration": ("<?xml version='1.0'?>", 1),
    "doctype": ("<!DOCTYPE x>", 2),
    "cdata": ("<scxml><![CDATA[", 9),
    "character_reference": ("<scxml xmlns='&#39;'/>", 15),
    "dashes_in_comment": ("<!-- a -- b --><scxml/>", 9),
    "text_between_tags": ("<scxml>x</scxml>", 7),
    "entity_in_name": ("<scxml><state id='&apos;'/></scxml>", 18),
    "other_entity": ("<scxml version='&lx;'/>", 18),
    "send_in_row": ("<scxml><send event='x'/></scxml>", 9),
    "raise_in_row": ("<scxml><raise event='a'/></scxml>", 8),
    "send_without_event": ("<scxml><state id='a'><onentry><send id='k'/>", 42),
    "cancel_without_sendid": ("<scxml><state id='a'><onentry><cancel/>", 37),
    "sendid_of_a_send": ("<scxml><state id='a'><onentry><send sendid='k'", 36),
    "descriptor_sent": ("<scxml><state id='a'><onentry><send event='a.*'", 45),
    "initial_twice": ("<scxml><state id='a' initial='b'><initial>", 34),
    "initial_without_transition": ("<scxml><state id='a'><initial></", 31),
    "initial_empty_tag": ("<scxml><state id='a'><initial/>", 29),
    "initial_with_event": ("<scxml><state id='a'><initial><transition event='e'", 42),
    "initial_of_root": ("<scxml><initial>", 8),
    "id_twice": ("<scxml><state id='a' id='b'/></scxml>", 22),
    "raise_without_event": ("<scxml><state id='a'><onentry><raise/>", 36),
    "other_attribute": ("<scxml name='x'/>", 7),
    "empty_target": ("<scxml><state id='a'><transition target=''/></state></scxml>", 41),
    "empty_token": ("<scxml><state id='a..b'/></scxml>", 20),
    "star_behind_token": ("<scxml><state id='a'><transition event='a*'", 41),
    "star_in_the_middle": ("<scxml><state id='a'><transition event='a.*.b'", 43),
    "other_type": ("<scxml><state id='s'/><transition type='foo'/></scxml>", 40),
    "other_version": ("<scxml version='1.1'><state id='a'/></scxml>", 16),
    "label_too_large": ("<scxml><state id='a'><onentry><log label='70000'/></onentry></state></scxml>", 42),
    "empty_label": ("<scxml><state id='a'><onentry><log label=''/></onentry></state></scxml>", 42),
    "delay_too_large": ("<scxml><state id='a'><onentry><send event='x' delay='4294967296'/></onentry></state></scxml>", 53),
    "empty_delay": ("<scxml><state id='a'><onentry><send event='x' delay=''/></onentry></state></scxml>", 53),
    "delay_in_seconds": ("<scxml><state id='a'><onentry><send event='x' delay='5s'/></onentry></state></scxml>", 53),
    "send_id_is_no_row": (
        "<scxml><state id='a'><onentry><send id='k' event='x'/></onentry><transition event='x' target='k'/></state></scxml>",
        94,
    ),
    "sendid_of_64": (
        "<scxml><state id='a'><onentry><cancel sendid='aaaaaaaaaaaaaaaaaaaaaaaaaaaaaaaaaaaaaaaaaaaaaaaaaaaaaaaaaaaaaaaa'/></onentry>"
        "</state></scxml>",
        46,
    ),
    "cond_without_quotes": ("<scxml><state id='s'/><state id='t'><transition cond='In(s)'/></state></scxml>", 54),
    "cond_with_blanks": ('<scxml><state id=\'s\'/><state id=\'t\'><transition cond="In( \'s\' )"/></state></scxml>', 54),
    "cond_unknown": ('<scxml><state id=\'s\'/><state id=\'t\'><transition cond="In(\'nix\')"/></state></scxml>', 58),
    "target_unknown": ("<scxml><state id='s'/><state id='t'><transition target='s nix'/></state></scxml>", 58),
    "id_of_64": ("<scxml><state id='aaaaaaaaaaaaaaaaaaaaaaaaaaaaaaaaaaaaaaaaaaaaaaaaaaaaaaaaaaaaaaaa'/></scxml>", 18),
    "reference_of_64": (
        "<scxml initial='aaaaaaaaaaaaaaaaaaaaaaaaaaaaaaaaaaaaaaaaaaaaaaaaaaaaaaaaaaaaaaaa'>"
        "<state id='aaaaaaaaaaaaaaaaaaaaaaaaaaaaaaaaaaaaaaaaaaaaaaaaaaaaaaaaaaaaaaaa'/></scxml>",
        16,
    ),
    "missing_id": ("<scxml><state initial='q'/></scxml>", 7),
}

# name: the text, the rule that refuses it, the numbers of its tables, and of some what is written of it behind ROOT
REFUSALS = {
    "state_in_final": (
        "<scxml><final id='f'><state id='s'/></final></scxml>",
        3,
        [3, 0, 0, 0, 0, 2, 0, 65535, 65535, 0, 0, 0, 0, 0, 0, 0, 0, 3, 0, 0, 0, 0, 0, 0, 0, 0, 0, 0, 1, 1, 1, 0, 0, 0, 0, 0, 0, 0, 0],
        None,
    ),
    "onentry_of_root": (
        "<scxml><state id='s'/><onentry><log label='1'/></onentry></scxml>",
        4,
        [2, 0, 0, 0, 1, 1, 0, 65535, 65535, 0, 1, 1, 0, 0, 0, 1, 0, 1, 0, 0, 1, 0, 1, 0, 0, 0, 1, 0, 1, 1, 0, 0],
        None,
    ),
    "transition_of_root": (
        "<scxml><state id='s'/><transition target='s'/></scxml>",
        5,
        [2, 1, 1, 0, 0, 1, 0, 65535, 65535, 0, 0, 0, 0, 0, 0, 0, 0, 1, 0, 0, 0, 0, 0, 0, 0, 0, 0, 0, 0, 0, 0, 65535, 0, 0, 1, 0, 0, 1],
        None,
    ),
    "history_with_event": (
        "<scxml><state id='a'><history id='h'><transition event='e' target='b'/></history><state id='b'/></state>"
        "</scxml>",
        4,
        [4, 1, 1, 1, 0, 4, 0, 65535, 65535, 0, 0, 0, 0, 0, 0, 0, 0, 1, 0, 0, 0, 0, 0, 0, 0, 0, 0, 0, 4, 1, 1, 0, 0, 0, 0, 0, 0, 0, 0, 1, 1,
         3, 0, 0, 0, 0, 0, 0, 0, 0, 2, 0, 1, 65535, 0, 0, 1, 0, 0, 3, 2],
        None,
    ),
    "history_with_two": (
        "<scxml><state id='a'><history id='h'><transition target='b'/><transition target='b'/></history><state id='b'/>"
        "</state></scxml>",
        5,
        [4, 1, 2, 0, 0, 3, 0, 65535, 65535, 0, 0, 0, 0, 0, 0, 0, 0, 1, 0, 0, 0, 0, 0, 0, 0, 0, 0, 0, 4, 1, 1, 0, 0, 0, 0, 0, 1, 0, 0, 1, 1,
         2, 0, 0, 0, 0, 1, 0, 0, 0, 2, 0, 0, 65535, 0, 1, 1, 0, 0, 3, 3],
        None,
    ),
    "id_of_a_digit": (
        "<scxml><state id='1'/></scxml>",
        2,
        [2, 0, 0, 0, 0, 1, 0, 65535, 65535, 0, 0, 0, 0, 0, 0, 0, 0, 1, 0, 0, 0, 0, 0, 0, 0, 0, 0, 0],
        None,
    ),
    "id_of_63": (
        "<scxml><state id='aaaaaaaaaaaaaaaaaaaaaaaaaaaaaaaaaaaaaaaaaaaaaaaaaaaaaaaaaaaaaaa'/></scxml>",
        2,
        [2, 0, 0, 0, 0, 1, 0, 65535, 65535, 0, 0, 0, 0, 0, 0, 0, 0, 1, 0, 0, 0, 0, 0, 0, 0, 0, 0, 0],
        None,
    ),
    "doubled_id": (
        "<scxml><state id='a'/><state id='a'/></scxml>",
        2,
        [3, 0, 0, 0, 0, 1, 0, 65535, 65535, 0, 0, 0, 0, 0, 0, 0, 0, 1, 0, 0, 0, 0, 0, 0, 0, 0, 0, 0, 1, 0, 0, 0, 0, 0, 0, 0, 0, 0, 0],
        None,
    ),
    "many_actions": (
        "<scxml><state id='a'><onentry>" + "<log label='1'/>" * 17 + "</onentry><onentry>" + "<log label='1'/>" * 16 + "</onentry></state></scxml>",
        1,
        [2, 0, 0, 0, 33, 1, 0, 65535, 65535, 0, 0, 0, 0, 0, 0, 0, 0, 1, 0, 0, 0, 33, 33, 0, 0, 0, 33, 0] + [1, 1, 0, 0] * 33,
        None,
    ),
    "five_descriptors": (
        "<scxml><state id='a'><transition event='a b c d e'/></state></scxml>",
        1,
        [2, 1, 0, 5, 0, 5, 0, 65535, 65535, 0, 0, 0, 0, 0, 0, 0, 0, 1, 0, 0, 0, 0, 0, 0, 0, 0, 0, 0, 1, 0, 5, 65535, 0, 0, 0, 0, 0, 0, 1, 2,
         3, 4],
        None,
    ),
    "stray_else": (
        "<scxml><state id='s'/><state id='t'><onentry><else/></onentry></state></scxml>",
        5,
        [3, 0, 0, 0, 1, 2, 0, 65535, 65535, 0, 0, 0, 0, 0, 0, 0, 0, 1, 0, 0, 0, 0, 0, 0, 0, 0, 0, 0, 1, 0, 1, 0, 1, 1, 0, 0, 0, 1, 0, 4, 0,
         0, 0],
        '><state id="s"/><state id="t"><onentry><else/></onentry></state></scxml>',
    ),
    "eventless_without_target": (
        '<scxml><state id=\'s\'><transition cond="In(\'s\')"/></state></scxml>',
        5,
        [2, 1, 0, 0, 0, 1, 0, 65535, 65535, 0, 0, 0, 0, 0, 0, 0, 0, 1, 0, 0, 0, 0, 0, 0, 0, 0, 0, 0, 1, 0, 0, 1, 0, 0, 0, 0, 0],
        None,
    ),
}

# name: the text, the numbers of its tables, its names by first use, what is written of it behind ROOT
CHARTS = {
    "if_elseif_else": (
        '<scxml><state id=\'s\'/><state id=\'t\'><onentry><if cond="In(\'s\')"><raise event=\'x\'/><elseif cond="In(\'t\')"/>'
        '<log label=\'2\'/><else/><if cond="In(\'s\')"/></if></onentry></state></scxml>',
        [3, 0, 0, 0, 8, 3, 0, 65535, 65535, 0, 0, 0, 0, 0, 0, 0, 0, 1, 0, 0, 0, 0, 0, 0, 0, 0, 0, 0, 1, 0, 1, 0, 8, 8, 0, 0, 0, 8, 0, 2, 1,
         0, 0, 0, 2, 0, 0, 3, 2, 0, 0, 1, 2, 0, 0, 4, 0, 0, 0, 2, 1, 0, 0, 5, 0, 0, 0, 5, 0, 0, 0],
        ["s", "t", "x"],
        '><state id="s"/><state id="t"><onentry><if cond="In(\'s\')"><raise event="x"/><elseif cond="In(\'t\')"/>'
        '<log label="2"/><else/><if cond="In(\'s\')"/></if></onentry></state></scxml>',
    ),
    "send_and_cancel": (
        "<scxml><state id='s'/><state id='t'><onentry><send id='k' event='x' delay='5'/><cancel sendid='k'/></onentry>"
        "</state></scxml>",
        [3, 0, 0, 0, 2, 4, 0, 65535, 65535, 0, 0, 0, 0, 0, 0, 0, 0, 1, 0, 0, 0, 0, 0, 0, 0, 0, 0, 0, 1, 0, 1, 0, 2, 2, 0, 0, 0, 2, 0, 6, 3,
         5, 2, 7, 2, 0, 0],
        ["s", "t", "k", "x"],
        '><state id="s"/><state id="t"><onentry><send id="k" event="x" delay="5"/><cancel sendid="k"/></onentry>'
        "</state></scxml>",
    ),
    # ids of sends are no row's: one begins with a digit, and t is cancelled, which no send has; no delay and a delay of 0 are the same
    "sends": (
        "<scxml><state id='t'><onexit><send event='x'/><send delay='004294967295' event='t'/>"
        "<send event='x' delay='0' id='9'/><send id='9' event='9'></send><cancel sendid='t'></cancel></onexit></state></scxml>",
        [2, 0, 0, 0, 5, 3, 0, 65535, 65535, 0, 0, 0, 0, 0, 0, 0, 0, 1, 0, 0, 0, 0, 0, 5, 0, 0, 5, 0, 6, 1, 0, 65535, 6, 0, 4294967295, 65535,
         6, 1, 0, 2, 6, 2, 0, 2, 7, 0, 0, 0],
        ["t", "x", "9"],
        '><state id="t"><onexit><send event="x"/><send event="t" delay="4294967295"/><send id="9" event="x"/>'
        '<send id="9" event="9"/><cancel sendid="t"/></onexit></state></scxml>',
    ),
    "delete_byte": (
        "<scxml><!--\x7f--><state id='a'/></scxml>",
        [2, 0, 0, 0, 0, 1, 0, 65535, 65535, 0, 0, 0, 0, 0, 0, 0, 0, 1, 0, 0, 0, 0, 0, 0, 0, 0, 0, 0],
        ["a"],
        '><state id="a"/></scxml>',
    ),
    "white_space": (
        " <scxml  version = '1.0' >\n<state\tid='a' /> </scxml > ",
        [2, 0, 0, 0, 0, 1, 0, 65535, 65535, 0, 0, 0, 0, 0, 0, 0, 0, 1, 0, 0, 0, 0, 0, 0, 0, 0, 0, 0],
        ["a"],
        '><state id="a"/></scxml>',
    ),
    "comments": (
        "<!-- a --><scxml><state id='a'/><!---a--></scxml><!---->",
        [2, 0, 0, 0, 0, 1, 0, 65535, 65535, 0, 0, 0, 0, 0, 0, 0, 0, 1, 0, 0, 0, 0, 0, 0, 0, 0, 0, 0],
        ["a"],
        '><state id="a"/></scxml>',
    ),
    "apostrophes": (
        "<scxml><state id='s'/><state id='t'><transition event='e' cond='In(&apos;s&apos;)'/></state></scxml>",
        [3, 1, 0, 1, 0, 3, 0, 65535, 65535, 0, 0, 0, 0, 0, 0, 0, 0, 1, 0, 0, 0, 0, 0, 0, 0, 0, 0, 0, 1, 0, 1, 0, 0, 0, 0, 0, 0, 0, 0, 2, 0,
         1, 1, 0, 0, 0, 0, 0, 2],
        ["s", "t", "e"],
        '><state id="s"/><state id="t"><transition event="e" cond="In(\'s\')"/></state></scxml>',
    ),
    "empty_elements": (
        "<scxml><state id='a'><onentry/><onexit></onexit></state></scxml>",
        [2, 0, 0, 0, 0, 1, 0, 65535, 65535, 0, 0, 0, 0, 0, 0, 0, 0, 1, 0, 0, 0, 0, 0, 0, 0, 0, 0, 0],
        ["a"],
        '><state id="a"/></scxml>',
    ),
    "initial_element": (
        "<scxml><state id='a'><initial><transition target='b'><raise event='x'/></transition></initial><state id='b'/>"
        "</state></scxml>",
        [3, 0, 1, 0, 1, 3, 0, 65535, 65535, 0, 0, 0, 0, 0, 0, 0, 0, 1, 0, 0, 0, 0, 0, 0, 0, 1, 0, 1, 1, 1, 2, 1, 0, 1, 0, 1, 0, 1, 0, 2, 0,
         1, 0, 0],
        ["a", "x", "b"],
        '><state id="a"><initial><transition target="b"><raise event="x"/></transition></initial><state id="b"/>'
        "</state></scxml>",
    ),
    "deep_history": (
        "<scxml><state id='a'><history type='deep' id='h'><transition target='c'><log label='3'/></transition>"
        "</history><state id='b'><state id='c'/></state></state></scxml>",
        [5, 0, 1, 0, 1, 4, 0, 65535, 65535, 0, 0, 0, 0, 0, 0, 0, 0, 1, 0, 0, 0, 0, 0, 0, 0, 0, 0, 0, 5, 1, 1, 0, 0, 0, 0, 0, 1, 0, 1, 1, 1,
         2, 1, 0, 1, 0, 1, 0, 1, 0, 1, 3, 3, 1, 0, 1, 0, 1, 0, 1, 0, 4, 1, 3, 0, 0],
        ["a", "h", "b", "c"],
        '><state id="a"><history id="h" type="deep"><transition target="c"><log label="3"/></transition></history>'
        '<state id="b"><state id="c"/></state></state></scxml>',
    ),
    "descriptors": (
        "<scxml><state id='s'/><state id='t'><transition event=' a.b  c.* *\t' target=' s '/></state></scxml>",
        [3, 1, 1, 3, 0, 5, 0, 65535, 65535, 0, 0, 0, 0, 0, 0, 0, 0, 1, 0, 0, 0, 0, 0, 0, 0, 0, 0, 0, 1, 0, 1, 0, 0, 0, 0, 0, 0, 0, 0, 2, 0,
         3, 65535, 0, 0, 1, 0, 0, 1, 2, 3, 4],
        ["s", "t", "a.b", "c.*", "*"],
        '><state id="s"/><state id="t"><transition event="a.b c.* *" target="s"/></state></scxml>',
    ),
    "label_with_zeros": (
        "<scxml><state id='a'><onentry><log label='000065535'/></onentry></state></scxml>",
        [2, 0, 0, 0, 1, 1, 0, 65535, 65535, 0, 0, 0, 0, 0, 0, 0, 0, 1, 0, 0, 0, 1, 1, 0, 0, 0, 1, 0, 1, 65535, 0, 0],
        ["a"],
        '><state id="a"><onentry><log label="65535"/></onentry></state></scxml>',
    ),
    "forward_reference": (
        "<scxml initial='b'><state id='a'/><state id='b'/></scxml>",
        [3, 0, 1, 0, 0, 2, 0, 65535, 65535, 0, 0, 0, 0, 0, 1, 0, 0, 1, 0, 0, 0, 0, 0, 0, 1, 0, 0, 0, 1, 0, 1, 0, 0, 0, 0, 1, 0, 0, 0, 2],
        ["a", "b"],
        ' initial="b"><state id="a"/><state id="b"/></scxml>',
    ),
    "order": (
        "<scxml><state id='a'><state id='b'><transition event='x' target='a'/></state>"
        "<transition event='y x' target='b'/><onexit><raise event='z'/></onexit><onentry><log label='1'/></onentry>"
        "<onentry><raise event='b'/></onentry></state></scxml>",
        [3, 2, 2, 3, 3, 5, 0, 65535, 65535, 0, 0, 0, 0, 0, 0, 0, 0, 1, 0, 0, 0, 2, 2, 1, 0, 0, 3, 0, 1, 1, 1, 3, 0, 3, 0, 0, 0, 3, 0, 1, 0,
         2, 65535, 0, 0, 1, 3, 0, 2, 2, 1, 65535, 0, 1, 1, 3, 0, 2, 1, 3, 2, 2, 1, 1, 0, 0, 0, 1, 0, 0, 0, 4, 0, 0],
        ["a", "b", "x", "y", "z"],
        '><state id="a"><onentry><log label="1"/><raise event="b"/></onentry><onexit><raise event="z"/></onexit>'
        '<transition event="y x" target="b"/><state id="b"><transition event="x" target="a"/></state></state></scxml>',
    ),
    "chart_a": (
        '<scxml xmlns="http://www.w3.org/2005/07/scxml" version="1.0"><parallel id="p">'
        '<transition event="done.state.p" target="someOtherState"/><state id="S1" initial="S11"><state id="S11">'
        '<transition event="e4" target="S12"/></state><state id="S12"><transition event="e1" target="S1Final"/></state>'
        '<final id="S1Final"/></state><state id="S2" initial="S21"><state id="S21">'
        '<transition event="e1" target="S22"/></state><state id="S22"><transition event="e2" target="S2Final"/></state>'
        '<final id="S2Final"/></state></parallel><state id="someOtherState"/></scxml>',
        [11, 5, 7, 5, 0, 14, 0, 65535, 65535, 0, 0, 0, 0, 0, 0, 0, 0, 2, 0, 0, 0, 0, 0, 0, 0, 0, 0, 0, 1, 1, 2, 0, 0, 0, 0, 0, 1, 0, 0, 1,
         2, 3, 0, 0, 0, 0, 1, 0, 0, 0, 1, 2, 5, 0, 0, 0, 0, 1, 0, 0, 0, 3, 2, 7, 0, 0, 0, 0, 1, 0, 0, 0, 1, 1, 8, 0, 0, 0, 0, 1, 1, 0, 0, 1,
         6, 9, 0, 0, 0, 0, 2, 0, 0, 0, 1, 6, 10, 0, 0, 0, 0, 2, 0, 0, 0, 3, 6, 12, 0, 0, 0, 0, 2, 0, 0, 0, 1, 0, 13, 0, 0, 0, 0, 2, 0, 0, 0,
         1, 0, 1, 65535, 0, 2, 1, 0, 0, 3, 1, 1, 65535, 0, 3, 1, 0, 0, 4, 2, 1, 65535, 0, 4, 1, 0, 0, 7, 3, 1, 65535, 0, 5, 1, 0, 0, 8, 4,
         1, 65535, 0, 6, 1, 0, 0, 3, 7, 10, 4, 5, 8, 9, 1, 4, 6, 6, 11],
        ["p", "done.state.p", "S1", "S11", "e4", "S12", "e1", "S1Final", "S2", "S21", "S22", "e2", "S2Final", "someOtherState"],
        '><parallel id="p"><transition event="done.state.p" target="someOtherState"/><state id="S1" initial="S11">'
        '<state id="S11"><transition event="e4" target="S12"/></state><state id="S12">'
        '<transition event="e1" target="S1Final"/></state><final id="S1Final"/></state><state id="S2" initial="S21">'
        '<state id="S21"><transition event="e1" target="S22"/></state><state id="S22">'
        '<transition event="e2" target="S2Final"/></state><final id="S2Final"/></state></parallel>'
        '<state id="someOtherState"/></scxml>',
    ),
    "door": (
        "<scxml initial='door'><state id='door'><onentry><log label='1'/></onentry><initial><transition target='open'>"
        "<log label='2'/></transition></initial><transition type='internal' event='reset' target='closed'/>"
        "<history id='h'><transition target='closed'/></history><state id='open'>"
        "<transition event='close' target='closed'><raise event='did.close'/></transition></state><state id='closed'>"
        '<transition event=\'key\' cond="In(\'closed\')" target=\'open\'/></state></state><final id=\'off\'/></scxml>',
        [6, 3, 6, 3, 3, 9, 0, 65535, 65535, 0, 0, 0, 0, 0, 1, 0, 0, 1, 0, 0, 0, 1, 1, 0, 1, 1, 1, 1, 4, 1, 2, 2, 0, 2, 0, 2, 1, 2, 0, 1, 1,
         3, 2, 0, 2, 0, 3, 0, 2, 0, 1, 1, 6, 2, 0, 2, 0, 3, 0, 2, 0, 3, 0, 8, 2, 0, 2, 0, 3, 0, 2, 0, 1, 0, 1, 65535, 1, 3, 1, 2, 0, 3, 1,
         1, 65535, 0, 4, 1, 2, 1, 4, 2, 1, 4, 0, 5, 1, 3, 0, 1, 3, 4, 4, 4, 3, 1, 4, 7, 1, 1, 0, 0, 1, 2, 0, 0, 0, 5, 0, 0],
        ["door", "reset", "h", "open", "close", "did.close", "closed", "key", "off"],
        ' initial="door"><state id="door"><onentry><log label="1"/></onentry><initial><transition target="open">'
        '<log label="2"/></transition></initial><transition type="internal" event="reset" target="closed"/>'
        '<history id="h"><transition target="closed"/></history><state id="open">'
        '<transition event="close" target="closed"><raise event="did.close"/></transition></state><state id="closed">'
        '<transition event="key" cond="In(\'closed\')" target="open"/></state></state><final id="off"/></scxml>',
    ),
    "deep_default": (
        "<scxml><state id='a'><history id='h' type='deep'><transition target='b'/></history><state id='b'/></state>"
        "</scxml>",
        [4, 0, 1, 0, 0, 3, 0, 65535, 65535, 0, 0, 0, 0, 0, 0, 0, 0, 1, 0, 0, 0, 0, 0, 0, 0, 0, 0, 0, 5, 1, 1, 0, 0, 0, 0, 0, 1, 0, 0, 1, 1,
         2, 0, 0, 0, 0, 1, 0, 0, 0, 3],
        ["a", "h", "b"],
        '><state id="a"><history id="h" type="deep"><transition target="b"/></history><state id="b"/></state></scxml>',
    ),
    "stated_first_child": (
        "<scxml initial='a'><state id='a'/></scxml>",
        [2, 0, 1, 0, 0, 1, 0, 65535, 65535, 0, 0, 0, 0, 0, 1, 0, 0, 1, 0, 0, 0, 0, 0, 0, 1, 0, 0, 0, 1],
        ["a"],
        ' initial="a"><state id="a"/></scxml>',
    ),
}

LEAST = "<scxml><state id='a'/></scxml>"

# name: the text, the lengths of the two places, the answer, the offset; each place holds sevens. Where the answer is 0 the text is LEAST.
CALLS = {
    "exact_places": (LEAST, 28, 64, 0, 0),
    "longer_places": (LEAST, 30, 67, 0, 0),
    "one_number_short": (LEAST, 27, 64, 1, 0),
    "one_byte_short": (LEAST, 28, 63, 1, 0),
    "rule_3": ("<scxml><final id='f'><state id='s'/></final></scxml>", 39, 128, 3, 0),
    "too_small_before_rule_3": ("<scxml><final id='f'><state id='s'/></final></scxml>", 38, 128, 1, 0),
    "fault_before_too_small": ("<scxml><state/></scxml>", 0, 0, 12, 7),
    "not_of_the_grammar": ("<scxml><state id='a'/>", 2, 3, 12, 22),
}

USES = """use Rattle.std.specs.Prelude.{◌≡◌, refl, List, [], ◌∷◌, ◌++◌, ℕ}
use Rattle.reading.specs.Tags.{tags_of}
use Rattle.reading.specs.Content.{content_of, slots_of}
use Rattle.reading.specs.Layout.{numbers_of, names_of, read_of, faulty, refused, tables}
use Rattle.reading.specs.Print.{print}
use Rattle.texts.specs.Opened.{everything}
"""

CALL_USES = """use Rattle.std.specs.Prelude.{◌≡◌, refl, List, [], ◌∷◌, ℕ}
use Rattle.reading.specs.Calls.{call_of}
use Rattle.texts.specs.Opened.{everything}
"""


def wrapped(text, indent="    "):
    return textwrap.fill(text, 150, initial_indent=indent, subsequent_indent=indent, break_long_words=False)


def numbers(cells):
    return " ∷ ".join(map(str, list(cells) + ["[]"]))


def of_bytes(text):
    return numbers(text.encode("latin-1"))


def names(slots):
    return " ∷ ".join(["(%s)" % of_bytes(s) for s in slots] + ["[]"])


def shown(text):
    return "-- " + ("".join(c if " " <= c <= "~" else "\\x%02x" % ord(c) for c in text) or "the empty text")


def theorem(name, statement):
    return "pub %s :\n%s\nunfolding everything\n%s = refl\n\n" % (name, wrapped(statement), name)


def constant(name, text):
    return "abbrev %s : List ℕ\n%s =\n%s\n\n" % (name, name, wrapped(of_bytes(text)))


def written(name, inside):
    """What is written of a text, and that this reads to the same content."""
    it = "content_of (tags_of text_%s)" % name
    out = constant("written_%s" % name, ROOT + inside)
    out += theorem("print_%s" % name, "print (%s) ≡ written_%s" % (it, name))
    return out + theorem("again_%s" % name, "content_of (tags_of written_%s) ≡ %s" % (name, it))


def faults():
    out = "-- Texts that are refused with 12, each with the offset of its first fault. Written by texts.py.\n" + USES + "\n"
    for name, (text, at) in FAULTS.items():
        out += shown(text) + "\n" + theorem(name, "read_of (%s) ≡ faulty %d" % (of_bytes(text), at))
    return out


def refusals():
    out = "-- Texts that read well and break a rule: the rule, their tables, what is written of them. Written by texts.py.\n" + USES + "\n"
    for name, (text, rule, cells, inside) in REFUSALS.items():
        tags = "tags_of text_%s" % name
        out += shown(text) + "\n" + constant("text_%s" % name, text)
        out += theorem(name, "read_of text_%s ≡ refused %d" % (name, rule))
        out += theorem("numbers_%s" % name, "numbers_of (slots_of (%s)) (content_of (%s)) ≡ %s" % (tags, tags, numbers(cells)))
        if inside is not None:
            out += written(name, inside)
    return out


def charts():
    out = "-- Texts that are charts: their tables, and what is written of them. Written by texts.py.\n" + USES + "\n"
    for name, (text, cells, slots, inside) in CHARTS.items():
        out += shown(text) + "\n" + constant("text_%s" % name, text)
        out += theorem(name, "read_of text_%s ≡ tables (%s) (names_of (%s))" % (name, numbers(cells), names(slots)))
        out += written(name, inside)
    return out


def calls():
    out = "-- Texts read into places of sevens: the answer, the offset, and the places behind the call. Written by texts.py.\n" + CALL_USES + "\n"
    for name, (text, room, name_room, answer, at) in CALLS.items():
        place, name_place, sizes = [7] * room, [7] * name_room, (0, 0)
        if answer == 0:
            cells, slot = CHARTS["delete_byte"][1], [97] + [0] * 63
            sizes = len(cells), len(slot)
            place, name_place = cells + place[len(cells):], slot + name_place[len(slot):]
        out += shown(text) + "\n" + constant("text_%s" % name, text)
        out += theorem(
            name,
            "call_of text_%s (%s) (%s) ≡ record { answer = %d; offset = %d; cells = %d; bytes = %d; numbers = %s; names = %s }"
            % ((name, numbers([7] * room), numbers([7] * name_room), answer, at) + sizes + (numbers(place), numbers(name_place))),
        )
    return out


def bare(text):
    """Without what the formatter sets: line ends, and the last semicolon of a record."""
    return text.replace(";", "").split()


def main():
    wrong = 0
    for name, write in {"Faults": faults, "Refusals": refusals, "Charts": charts, "Calls": calls}.items():
        path = os.path.join(here, name + ".antt")
        if "--check" not in sys.argv:
            open(path, "w", encoding="utf-8").write(write())
        elif bare(open(path, encoding="utf-8").read()) != bare(write()):
            print("%s.antt is not what texts.py writes" % name)
            wrong += 1
    return 1 if wrong else 0


sys.exit(main())
