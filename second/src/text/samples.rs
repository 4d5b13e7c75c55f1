//! Texts in which everything of the grammar comes up.

/// Every element, attribute and kind of white space, comment, quote and entity.
pub const EVERYTHING: &str = "<!-- - --> \n<scxml xmlns='http://www.w3.org/2005/07/scxml'\tversion = \"1.0\" initial=\" p \">
<state id=\"a\" initial='b'><onentry ><raise event='e.f'> <!----></raise ><log label=\"&amp;1\"/></onentry><onexit/>
<transition type='internal' cond='In(&apos;b&apos;)' event=\"a.* * b\" target='b'/><state id='b'><initial><!-- --><transition type=\"external\"
 target='c'><log label='&quot;2'/></transition> </initial><final id='c'/></state></state>
<parallel id='p'><history id='h' type='deep'><transition target='d'/></history><state id='d'/></parallel></scxml> <!--->-->\r\n";

/// The actions that hold others and stand between them.
pub const BRANCHES: &str = "<scxml><state id='a'><onexit><if cond=\"In('a')\"><raise event='e' /><!-- --><elseif cond='In(&apos;a&apos;)'
 /><log label='1'></log><if cond='&lt;'/><else></else ></if ><else/><raise\tevent=\"e\"> </raise></onexit>
<transition><if cond=''><log label='1'/></if></transition></state></scxml>";

/// Sends and cancels among them.
pub const TIMERS: &str = "<scxml><state id='a'><onexit><if cond=\"In('a')\"><send event='e' /><!-- --><elseif cond='In(&apos;a&apos;)'
 /><cancel sendid='s'></cancel><if cond='&lt;'/><else></else ></if ><else/><send\tid='s' delay='5' event=\"e\"> </send><raise event='f'/></onexit>
<transition><if cond=''><log label='1'/></if></transition></state></scxml>";
