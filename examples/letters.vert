<doc id="letter1" year="1897">
<s>
The	DT	the
harbour	NN	harbour
is	VBZ	be
quiet	JJ	quiet
this	DT	this
morning	NN	morning
<g/>
.	SENT	.
</s>
<s>
Two	CD	two
ships	NNS	ship
came	VBD	come
in	IN	in
before	IN	before
dawn	NN	dawn
<g/>
,	,	,
and	CC	and
the	DT	the
old	JJ	old
pilot	NN	pilot
went	VBD	go
out	RP	out
to	TO	to
meet	VB	meet
them	PRP	they
<g/>
.	SENT	.
</s>
<s>
The	DT	the
first	JJ	first
ship	NN	ship
carried	VBD	carry
salt	NN	salt
and	CC	and
dry	JJ	dry
cod	NN	cod
<g/>
.	SENT	.
</s>
<s>
The	DT	the
second	JJ	second
carried	VBD	carry
nothing	NN	nothing
but	IN	but
letters	NNS	letter
<g/>
.	SENT	.
</s>
<s>
I	PRP	I
read	VBD	read
yours	PRP	yours
twice	RB	twice
<g/>
,	,	,
first	RB	first
on	IN	on
the	DT	the
quay	NN	quay
and	CC	and
then	RB	then
by	IN	by
the	DT	the
lamp	NN	lamp
<g/>
.	SENT	.
</s>
<s>
You	PRP	you
ask	VBP	ask
what	WP	what
a	DT	a
pilot	NN	pilot
does	VBZ	do
all	DT	all
day	NN	day
<g/>
.	SENT	.
</s>
<s>
A	DT	a
pilot	NN	pilot
waits	VBZ	wait
<g/>
,	,	,
and	CC	and
an	DT	a
old	JJ	old
pilot	NN	pilot
waits	VBZ	wait
well	RB	well
<g/>
.	SENT	.
</s>
</doc>
<doc id="letter2" year="1898">
<s>
It	PRP	it
is	VBZ	be
winter	NN	winter
here	RB	here
<g/>
,	,	,
and	CC	and
the	DT	the
ships	NNS	ship
lie	VBP	lie
in	IN	in
the	DT	the
ice	NN	ice
<g/>
.	SENT	.
</s>
<s>
No	DT	no
letters	NNS	letter
came	VBD	come
for	IN	for
nine	CD	nine
weeks	NNS	week
<g/>
.	SENT	.
</s>
<s>
Then	RB	then
a	DT	a
man	NN	man
came	VBD	come
over	IN	over
the	DT	the
ice	NN	ice
with	IN	with
a	DT	a
bag	NN	bag
on	IN	on
his	PRP$	he
back	NN	back
<g/>
,	,	,
and	CC	and
the	DT	the
whole	JJ	whole
town	NN	town
stood	VBD	stand
on	IN	on
the	DT	the
quay	NN	quay
<g/>
.	SENT	.
</s>
<s>
There	EX	there
were	VBD	be
forty	CD	forty
letters	NNS	letter
in	IN	in
the	DT	the
bag	NN	bag
<g/>
.	SENT	.
</s>
<s>
The	DT	the
old	JJ	old
pilot	NN	pilot
had	VBD	have
one	CD	one
<g/>
,	,	,
and	CC	and
he	PRP	he
read	VBD	read
it	PRP	it
aloud	RB	aloud
<g/>
.	SENT	.
</s>
<s>
It	PRP	it
said	VBD	say
<g/>
:	:	:
wait	VB	wait
for	IN	for
us	PRP	we
in	IN	in
spring	NN	spring
<g/>
.	SENT	.
</s>
<s>
So	RB	so
he	PRP	he
waits	VBZ	wait
<g/>
,	,	,
and	CC	and
I	PRP	I
wait	VBP	wait
with	IN	with
him	PRP	he
<g/>
,	,	,
and	CC	and
the	DT	the
lamp	NN	lamp
is	VBZ	be
lit	VBN	light
<g/>
.	SENT	.
</s>
</doc>
<doc id="letter3" year="1898">
<s>
The	DT	the
ice	NN	ice
broke	VBD	break
on	IN	on
a	DT	a
Sunday	NP	Sunday
<g/>
,	,	,
and	CC	and
by	IN	by
noon	NN	noon
we	PRP	we
saw	VBD	see
three	CD	three
ships	NNS	ship
<g/>
.	SENT	.
</s>
<s>
The	DT	the
old	JJ	old
pilot	NN	pilot
put	VBD	put
on	RP	on
his	PRP$	he
coat	NN	coat
and	CC	and
did	VBD	do
not	RB	not
wait	VB	wait
for	IN	for
the	DT	the
boat	NN	boat
<g/>
.	SENT	.
</s>
</doc>
