<doc book="Mark">
<v at="1:1">
<s>
The	det.def.sp	the
beginning	n.sg	beginning
of	pr	of
the	det.def.sp	the
gospel	n.sg	gospel
of	pr	of
Jesus	np.ant.m.sg	Jesus
Christ	np.ant.m.sg	Christ
,	cm	,
the	det.def.sp	the
Son	n.sg	son
of	pr	of
God	n.sg	god
;	sent	;
</s>
</v>
<v at="1:2">
<s>
As	pr	as
it	prn.subj.p3.nt.sg	it
is	vbser.pres.p3.sg	be
written	vblex.pp	write
in	pr	in
the	det.def.sp	the
prophets	n.pl	prophet
,	cm	,
Behold	vblex.imp	behold
,	cm	,
I	prn.subj.p1.mf.sg.min	prpers
send	vblex.pres	send
my	det.pos.sp	my
messenger	n.sg	messenger
before	pr	before
thy	det.pos.sp	thy
face	n.sg	face
,	cm	,
which	prn.itg.mf.sp	which
shall	vbmod.pres	shall
prepare	vblex.inf	prepare
thy	det.pos.sp	thy
way	n.sg	way
before	pr	before
thee	prn.obj.p2.mf.sg	thou
.	sent	.
</s>
</v>
<v at="1:3">
<s>
The	det.def.sp	the
voice	n.sg	voice
of	pr	of
one	prn.dem.mf.sg	one
crying	vblex.subs	cry
in	pr	in
the	det.def.sp	the
wilderness	n.sg	wilderness
,	cm	,
Prepare	vblex.imp	prepare
ye	prn.subj.p2.mf.pl	ye
the	det.def.sp	the
way	n.sg	way
of	pr	of
the	det.def.sp	the
Lord	n.sg	lord
,	cm	,
make	vblex.inf	make
his	adj.pos.pred	his
paths	n.pl	path
straight	adv	straight
.	sent	.
</s>
</v>
<v at="1:4">
<s>
John	np.ant.m.sg	John
did	vbdo.past	do
baptize	vblex.inf	baptise
in	pr	in
the	det.def.sp	the
wilderness	n.sg	wilderness
,	cm	,
and	cnjcoo	and
preach	vblex.pres	preach
the	det.def.sp	the
baptism	n.sg	baptism
of	pr	of
repentance	unknown	repentance
for	pr	for
the	det.def.sp	the
remission	n.sg	remission
of	pr	of
sins	n.pl	sin
.	sent	.
</s>
</v>
<v at="1:5">
<s>
And	cnjcoo	and
there	adv	there
went out	vblex.past	go out
unto	pr	unto
him	prn.obj.p3.m.sg	him
all	predet.sp	all
the	det.def.sp	the
land	n.sg	land
of	pr	of
Judaea	unknown	Judaea
,	cm	,
and	cnjcoo	and
they	prn.subj.p3.mf.pl	they
of	pr	of
Jerusalem	np.top.sg	Jerusalem
,	cm	,
and	cnjcoo	and
were	vbser.past	be
all	prn.qnt.mf.sp	all
baptized	vblex.pp	baptise
of	pr	of
him	prn.obj.p3.m.sg	him
in	pr	in
the	det.def.sp	the
river	n.sg	river
of	pr	of
Jordan	np.top.sg	Jordan
,	cm	,
confessing	vblex.ger	confess
their	det.pos.sp	their
sins	n.pl	sin
.	sent	.
</s>
</v>
<v at="1:6">
<s>
And	cnjcoo	and
John	np.cog.sg	John
was	vbser.past.p3.sg	be
clothed	unknown	clothed
with	pr	with
camel	n.sg	camel
's	gen	's
hair	n.sg	hair
,	cm	,
and	cnjcoo	and
with	pr	with
a	det.ind.sg	a
girdle	unknown	girdle
of	pr	of
a	det.ind.sg	a
skin	n.sg	skin
about	pr	about
his	adj.pos.pred	his
loins	n.pl	loin
;	sent	;
</s>
<s>
and	cnjcoo	and
he	prn.subj.p3.m.sg	he
did	vbdo.past	do
eat	vblex.inf	eat
locusts	unknown	locusts
and	cnjcoo	and
wild	adj.sint	wild
honey	n.sg	honey
;	sent	;
</s>
</v>
<v at="1:7">
<s>
And	cnjcoo	and
preached	vblex.pp	preach
,	cm	,
saying	vblex.ger	say
,	cm	,
There	adv	there
cometh	vblex.pres.p3.sg	come
one	num.sg	one
mightier	adj.sint.comp	mighty
than	cnjsub	than
I	prn.subj.p1.mf.sg.min	prpers
after	pr	after
me	prn.obj.p1.mf.sg	me
,	cm	,
the	det.def.sp	the
latchet	unknown	latchet
of	pr	of
whose	det.pos.mf.sp	whose
shoes	n.pl	shoe
I	prn.subj.p1.mf.sg.min	prpers
am	vbser.pres.p1.sg	be
not	adv	not
worthy	adj.sint	worthy
to	pr	to
stoop	unknown	stoop
down	adv	down
and	cnjcoo	and
unloose	unknown	unloose
.	sent	.
</s>
</v>
<v at="1:8">
<s>
I	prn.subj.p1.mf.sg	prpers
indeed	adv	indeed
have	vbhaver.inf	have
baptized	vblex.pp	baptise
you	prn.obj.p2.mf.sp	you
with	pr	with
water	n.sg	water
:	sent	:
</s>
<s>
but	cnjcoo	but
he	prn.subj.p3.m.sg	he
shall	vbmod.pres	shall
baptize	vblex.inf	baptise
you	prn.obj.p2.mf.sp	you
with	pr	with
the	det.def.sp	the
Holy	adj.sint	holy
Ghost	n.sg	ghost
.	sent	.
</s>
</v>
<v at="1:9">
<s>
And	cnjcoo	and
it	prn.subj.p3.nt.sg	it
came	vblex.past	come
to	pr	to
pass	vblex.inf	pass
in	pr	in
those	det.dem.pl	that
days	n.pl	day
,	cm	,
that	cnjsub	that
Jesus	np.ant.m.sg	Jesus
came from	vblex.past	come from
Nazareth	np.top.sg	Nazareth
of	pr	of
Galilee	unknown	Galilee
,	cm	,
and	cnjcoo	and
was	vbser.past.p1.sg	be
baptized	vblex.pp	baptise
of	pr	of
John	np.cog.sg	John
in	pr	in
Jordan	np.top.sg	Jordan
.	sent	.
</s>
</v>
<v at="1:10">
<s>
And	cnjcoo	and
straightway	adv	straightway
coming	vblex.ger	come
up	adv	up
out of	pr	out of
the	det.def.sp	the
water	n.sg	water
,	cm	,
he	prn.subj.p3.m.sg	he
saw	vblex.past	see
the	det.def.sp	the
heavens	n.pl	heaven
opened	vblex.past	open
,	cm	,
and	cnjcoo	and
the	det.def.sp	the
Spirit	n.sg	spirit
like	pr	like
a	det.ind.sg	a
dove	n.sg	dove
descending	vblex.subs	descend
upon	pr	upon
him	prn.obj.p3.m.sg	him
:	sent	:
</s>
</v>
<v at="1:11">
<s>
And	cnjcoo	and
there	adv	there
came	vblex.past	come
a	det.ind.sg	a
voice	n.sg	voice
from	pr	from
heaven	n.sg	heaven
,	cm	,
saying	vblex.pprs	say
,	cm	,
Thou	prn.subj.p2.mf.sg	thou
art	vbser.pres.p2.sg	be
my	det.pos.sp	my
beloved	adj	beloved
Son	n.sg	son
,	cm	,
in	pr	in
whom	prn.rel.an.mf.sp	whom
I	prn.subj.p1.mf.sg.min	prpers
am	vbser.pres.p1.sg	be
well	adv	well
pleased	vblex.pp	please
.	sent	.
</s>
</v>
<v at="1:12">
<s>
And	cnjcoo	and
immediately	adv	immediately
the	det.def.sp	the
Spirit	n.sg	spirit
driveth	unknown	driveth
him	prn.obj.p3.m.sg	him
into	pr	into
the	det.def.sp	the
wilderness	n.sg	wilderness
.	sent	.
</s>
</v>
<v at="1:13">
<s>
And	cnjcoo	and
he	prn.subj.p3.m.sg	he
was	vbser.past.p1.sg	be
there	adv	there
in	pr	in
the	det.def.sp	the
wilderness	n.sg	wilderness
forty	num.pl	forty
days	n.pl	day
,	cm	,
tempted	vblex.past	tempt
of	pr	of
Satan	unknown	Satan
;	sent	;
</s>
<s>
and	cnjcoo	and
was	vbser.past.p1.sg	be
with	pr	with
the	det.def.sp	the
wild	adj.sint	wild
beasts	n.pl	beast
;	sent	;
</s>
<s>
and	cnjcoo	and
the	det.def.sp	the
angels	n.pl	angel
ministered	unknown	ministered
unto	pr	unto
him	prn.obj.p3.m.sg	him
.	sent	.
</s>
</v>
<v at="1:14">
<s>
Now	adv	now
after that	adv	after that
John	np.cog.sg	John
was	vbser.past.p3.sg	be
put	vblex.pp	put
in	pr	in
prison	n.sg	prison
,	cm	,
Jesus	np.ant.m.sg	Jesus
came	vblex.past	come
into	pr	into
Galilee	unknown	Galilee
,	cm	,
preaching	vblex.ger	preach
the	det.def.sp	the
gospel	n.sg	gospel
of	pr	of
the	det.def.sp	the
kingdom	n.sg	kingdom
of	pr	of
God	n.sg	god
,	cm	,
</v>
<v at="1:15">
And	cnjcoo	and
saying	n.sg	saying
,	cm	,
The	det.def.sp	the
time	n.sg	time
is	vbser.pres.p3.sg	be
fulfilled	vblex.pp	fulfil
,	cm	,
and	cnjcoo	and
the	det.def.sp	the
kingdom	n.sg	kingdom
of	pr	of
God	n.sg	god
is	vbser.pres.p3.sg	be
at hand	adv	at hand
:	sent	:
</s>
<s>
repent	unknown	repent
ye	prn.subj.p2.mf.pl	ye
,	cm	,
and	cnjcoo	and
believe	vblex.pres	believe
the	det.def.sp	the
gospel	n.sg	gospel
.	sent	.
</s>
</v>
<v at="1:16">
<s>
Now	adv	now
as	cnjadv	as
he	prn.subj.p3.m.sg	he
walked	vblex.past	walk
by	pr	by
the	det.def.sp	the
sea	n.sg	sea
of	pr	of
Galilee	unknown	Galilee
,	cm	,
he	prn.subj.p3.m.sg	he
saw	vblex.past	see
Simon	np.ant.m.sg	Simon
and	cnjcoo	and
Andrew	np.cog.sg	Andrew
his	det.pos.sp	his
brother	n.sg	brother
casting	n.sg	casting
a	det.ind.sg	a
net	n.sg	net
into	pr	into
the	det.def.sp	the
sea	n.sg	sea
:	sent	:
</s>
<s>
for	pr	for
they	prn.subj.p3.mf.pl	they
were	vbser.past	be
fishers	unknown	fishers
.	sent	.
</s>
</v>
<v at="1:17">
<s>
And	cnjcoo	and
Jesus	np.ant.m.sg	Jesus
said	vblex.past	say
unto	pr	unto
them	prn.obj.p3.mf.pl	them
,	cm	,
Come	vblex.imp	come
ye	prn.subj.p2.mf.pl	ye
after	pr	after
me	prn.obj.p1.mf.sg	me
,	cm	,
and	cnjcoo	and
I	prn.subj.p1.mf.sg.min	prpers
will	vbmod.pres	will
make	vblex.inf	make
you	prn.obj.p2.mf.sp	you
to	pr	to
become	vblex.inf	become
fishers	unknown	fishers
of	pr	of
men	n.pl	man
.	sent	.
</s>
</v>
<v at="1:18">
<s>
And	cnjcoo	and
straightway	adv	straightway
they	prn.subj.p3.mf.pl	they
forsook	unknown	forsook
their	det.pos.sp	their
nets	n.pl	net
,	cm	,
and	cnjcoo	and
followed	vblex.past	follow
him	prn.obj.p3.m.sg	him
.	sent	.
</s>
</v>
<v at="1:19">
<s>
And	cnjcoo	and
when	cnjadv	when
he	prn.subj.p3.m.sg	he
had	vbhaver.past	have
gone	vblex.pp	go
a	det.ind.sg	a
little	adj	little
farther	adj.sint.comp	far
thence	adv	thence
,	cm	,
he	prn.subj.p3.m.sg	he
saw	vblex.past	see
James	np.cog.sg	James
the	det.def.sp	the
son	n.sg	son
of	pr	of
Zebedee	unknown	Zebedee
,	cm	,
and	cnjcoo	and
John	np.ant.m.sg	John
his	det.pos.sp	his
brother	n.sg	brother
,	cm	,
who	prn.rel.an.mf.sp	who
also	adv	also
were	vbser.past	be
in	pr	in
the	det.def.sp	the
ship	n.sg	ship
mending	vblex.pprs	mend
their	det.pos.sp	their
nets	n.pl	net
.	sent	.
</s>
</v>
<v at="1:20">
<s>
And	cnjcoo	and
straightway	adv	straightway
he	prn.subj.p3.m.sg	he
called	vblex.past	call
them	prn.obj.p3.mf.pl	them
:	sent	:
</s>
<s>
and	cnjcoo	and
they	prn.subj.p3.mf.pl	they
left	vblex.past	leave
their	det.pos.sp	their
father	n.sg	father
Zebedee	unknown	Zebedee
in	pr	in
the	det.def.sp	the
ship	n.sg	ship
with	pr	with
the	det.def.sp	the
hired	vblex.pp	hire
servants	n.pl	servant
,	cm	,
and	cnjcoo	and
went	vblex.past	go
after	pr	after
him	prn.obj.p3.m.sg	him
.	sent	.
</s>
</v>
<v at="1:21">
<s>
And	cnjcoo	and
they	prn.subj.p3.mf.pl	they
went	vblex.past	go
into	pr	into
Capernaum	unknown	Capernaum
;	sent	;
</s>
<s>
and	cnjcoo	and
straightway	adv	straightway
on	pr	on
the	det.def.sp	the
sabbath	n.sg	sabbath
day	n.sg	day
he	prn.subj.p3.m.sg	he
entered	vblex.past	enter
into	pr	into
the	det.def.sp	the
synagogue	n.sg	synagogue
,	cm	,
and	cnjcoo	and
taught	vblex.past	teach
.	sent	.
</s>
</v>
<v at="1:22">
<s>
And	cnjcoo	and
they	prn.subj.p3.mf.pl	they
were	vbser.past	be
astonished	vblex.pp	astonish
at	pr	at
his	det.pos.sp	his
doctrine	n.sg	doctrine
:	sent	:
</s>
<s>
for	pr	for
he	prn.subj.p3.m.sg	he
taught	vblex.past	teach
them	prn.obj.p3.mf.pl	them
as	pr	as
one	prn.dem.mf.sg	one
that	prn.dem.mf.sg	that
had	vblex.past	have
authority	n.sg	authority
,	cm	,
and	cnjcoo	and
not	adv	not
as	cnjadv	as
the	det.def.sp	the
scribes	n.pl	scribe
.	sent	.
</s>
</v>
<v at="1:23">
<s>
And	cnjcoo	and
there	adv	there
was	vbser.past.p1.sg	be
in	pr	in
their	det.pos.sp	their
synagogue	n.sg	synagogue
a	det.ind.sg	a
man	n.sg	man
with	pr	with
an	det.ind.sg	a
unclean	unknown	unclean
spirit	n.sg	spirit
;	sent	;
</s>
<s>
and	cnjcoo	and
he	prn.subj.p3.m.sg	he
cried	vblex.past	cry
out	adv	out
,	cm	,
</v>
<v at="1:24">
Saying	vblex.ger	say
,	cm	,
Let	vblex.imp	let
us	prn.obj.p1.mf.pl	us
alone	adj	alone
;	sent	;
</s>
<s>
what	prn.rel.nn.mf.sg	what
have	vblex.pres	have
we	prn.subj.p1.mf.pl	we
to	pr	to
do	vblex.inf	do
with	pr	with
thee	prn.obj.p2.mf.sg	thou
,	cm	,
thou	prn.subj.p2.mf.sg	thou
Jesus	np.ant.m.sg	Jesus
of	pr	of
Nazareth	np.top.sg	Nazareth
?	sent	?
</s>
<s>
art	vbser.pres.p2.sg	be
thou	prn.subj.p2.mf.sg	thou
come	vblex.pres	come
to	pr	to
destroy	vblex.inf	destroy
us	prn.obj.p1.mf.pl	us
?	sent	?
</s>
<s>
I	prn.subj.p1.mf.sg	prpers
know	vblex.pres	know
thee	prn.obj.p2.mf.sg	thou
who	prn.rel.an.mf.sp	who
thou	prn.subj.p2.mf.sg	thou
art	vbser.pres.p2.sg	be
,	cm	,
the	det.def.sp	the
Holy	adj.sint	holy
One	prn.dem.mf.sg	one
of	pr	of
God	n.sg	god
.	sent	.
</s>
</v>
<v at="1:25">
<s>
And	cnjcoo	and
Jesus	np.ant.m.sg	Jesus
rebuked	unknown	rebuked
him	prn.obj.p3.m.sg	him
,	cm	,
saying	vblex.pprs	say
,	cm	,
Hold	vblex.imp	hold
thy	det.pos.sp	thy
peace	n.sg	peace
,	cm	,
and	cnjcoo	and
come out	vblex.pp	come out
of	pr	of
him	prn.obj.p3.m.sg	him
.	sent	.
</s>
</v>
<v at="1:26">
<s>
And	cnjcoo	and
when	cnjadv	when
the	det.def.sp	the
unclean	unknown	unclean
spirit	n.sg	spirit
had	vbhaver.past	have
torn	vblex.pp	tear
him	prn.obj.p3.m.sg	him
,	cm	,
and	cnjcoo	and
cried	vblex.past	cry
with	pr	with
a	det.ind.sg	a
loud	adj.sint	loud
voice	n.sg	voice
,	cm	,
he	prn.subj.p3.m.sg	he
came out	vblex.past	come out
of	pr	of
him	prn.obj.p3.m.sg	him
.	sent	.
</s>
</v>
<v at="1:27">
<s>
And	cnjcoo	and
they	prn.subj.p3.mf.pl	they
were	vbser.past	be
all	predet.sp	all
amazed	vblex.pp	amaze
,	cm	,
insomuch	unknown	insomuch
that	cnjsub	that
they	prn.subj.p3.mf.pl	they
questioned	vblex.past	question
among	pr	among
themselves	prn.ref.p3.mf.pl	themselves
,	cm	,
saying	vblex.pprs	say
,	cm	,
What	det.itg.sp	what
thing	n.sg	thing
is	vbser.pres.p3.sg	be
this	prn.dem.mf.sg	this
?	sent	?
</s>
<s>
what	det.itg.sp	what
new	adj.sint	new
doctrine	n.sg	doctrine
is	vbser.pres.p3.sg	be
this	prn.dem.mf.sg	this
?	sent	?
</s>
<s>
for	pr	for
with	pr	with
authority	n.sg	authority
commandeth	unknown	commandeth
he	prn.subj.p3.m.sg	he
even	adv	even
the	det.def.sp	the
unclean	unknown	unclean
spirits	n.pl	spirit
,	cm	,
and	cnjcoo	and
they	prn.subj.p3.mf.pl	they
do	vbdo.pres	do
obey	vblex.inf	obey
him	prn.obj.p3.m.sg	him
.	sent	.
</s>
</v>
<v at="1:28">
<s>
And	cnjcoo	and
immediately	adv	immediately
his	det.pos.sp	his
fame	n.sg	fame
spread	n.sg	spread
abroad	adv	abroad
throughout	adv	throughout
all	predet.sp	all
the	det.def.sp	the
region	n.sg	region
round	n.sg	round
about	adv	about
Galilee	unknown	Galilee
.	sent	.
</s>
</v>
<v at="1:29">
<s>
And	cnjcoo	and
forthwith	adv	forthwith
,	cm	,
when	cnjadv	when
they	prn.subj.p3.mf.pl	they
were	vbser.past	be
come out	vblex.pp	come out
of	pr	of
the	det.def.sp	the
synagogue	n.sg	synagogue
,	cm	,
they	prn.subj.p3.mf.pl	they
entered	vblex.past	enter
into	pr	into
the	det.def.sp	the
house	n.sg	house
of	pr	of
Simon	np.cog.sg	Simon
and	cnjcoo	and
Andrew	np.ant.m.sg	Andrew
,	cm	,
with	pr	with
James	np.ant.m.sg	James
and	cnjcoo	and
John	np.ant.m.sg	John
.	sent	.
</s>
</v>
<v at="1:30">
<s>
But	cnjcoo	but
Simon	np.cog.sg	Simon
's	gen	's
wife	n.sg	wife
's	gen	's
mother	n.sg	mother
lay	vblex.pres	lay
sick	adj.sint	sick
of	pr	of
a	det.ind.sg	a
fever	n.sg	fever
,	cm	,
and	cnjcoo	and
anon	adv	anon
they	prn.subj.p3.mf.pl	they
tell	vblex.pres	tell
him	prn.obj.p3.m.sg	him
of	pr	of
her	prn.obj.p3.f.sg	her
.	sent	.
</s>
</v>
<v at="1:31">
<s>
And	cnjcoo	and
he	prn.subj.p3.m.sg	he
came	vblex.past	come
and	cnjcoo	and
took	vblex.past	take
her	prn.obj.p3.f.sg	her
by	pr	by
the	det.def.sp	the
hand	n.sg	hand
,	cm	,
and	cnjcoo	and
lifted	vblex.past	lift
her	prn.obj.p3.f.sg	her
up	adv	up
;	sent	;
</s>
<s>
and	cnjcoo	and
immediately	adv	immediately
the	det.def.sp	the
fever	n.sg	fever
left	n.sg	left
her	prn.obj.p3.f.sg	her
,	cm	,
and	cnjcoo	and
she	prn.subj.p3.f.sg	she
ministered	unknown	ministered
unto	pr	unto
them	prn.obj.p3.mf.pl	them
.	sent	.
</s>
</v>
<v at="1:32">
<s>
And	cnjcoo	and
at	pr	at
even	adv	even
,	cm	,
when	cnjadv	when
the	det.def.sp	the
sun	n.sg	sun
did	vbdo.past	do
set	vblex.inf	set
,	cm	,
they	prn.subj.p3.mf.pl	they
brought	vblex.past	bring
unto	pr	unto
him	prn.obj.p3.m.sg	him
all	prn.qnt.mf.sp	all
that	cnjsub	that
were	vbser.past	be
diseased	unknown	diseased
,	cm	,
and	cnjcoo	and
them	prn.obj.p3.mf.pl	them
that	cnjsub	that
were	vbser.past	be
possessed	vblex.pp	possess
with	pr	with
devils	n.pl	devil
.	sent	.
</s>
</v>
<v at="1:33">
<s>
And	cnjcoo	and
all	predet.sp	all
the	det.def.sp	the
city	n.sg	city
was	vbser.past.p3.sg	be
gathered	vblex.pp	gather
together	adj	together
at	pr	at
the	det.def.sp	the
door	n.sg	door
.	sent	.
</s>
</v>
<v at="1:34">
<s>
And	cnjcoo	and
he	prn.subj.p3.m.sg	he
healed	vblex.past	heal
many	prn.ind.mf.pl	many
that	cnjsub	that
were	vbser.past	be
sick	adj.sint	sick
of	pr	of
divers	n.pl	diver
diseases	n.pl	disease
,	cm	,
and	cnjcoo	and
cast	vblex.past	cast
out	pr	out
many	det.qnt.pl	many
devils	n.pl	devil
;	sent	;
</s>
<s>
and	cnjcoo	and
suffered	vblex.past	suffer
not	adv	not
the	det.def.sp	the
devils	n.pl	devil
to	pr	to
speak	vblex.inf	speak
,	cm	,
because	cnjadv	because
they	prn.subj.p3.mf.pl	they
knew	vblex.past	know
him	prn.obj.p3.m.sg	him
.	sent	.
</s>
</v>
<v at="1:35">
<s>
And	cnjcoo	and
in the morning	adv	in the morning
,	cm	,
rising	vblex.subs	rise
up	pr	up
a	det.ind.sg	a
great	adj.sint	great
while	cnjadv	while
before	pr	before
day	n.sg	day
,	cm	,
he	prn.subj.p3.m.sg	he
went out	vblex.past	go out
,	cm	,
and	cnjcoo	and
departed	vblex.past	depart
into	pr	into
a	det.ind.sg	a
solitary	adj	solitary
place	n.sg	place
,	cm	,
and	cnjcoo	and
there	adv	there
prayed	vblex.pp	pray
.	sent	.
</s>
</v>
<v at="1:36">
<s>
And	cnjcoo	and
Simon	np.ant.m.sg	Simon
and	cnjcoo	and
they	prn.subj.p3.mf.pl	they
that	cnjsub	that
were	vbser.past	be
with	pr	with
him	prn.obj.p3.m.sg	him
followed	vblex.pp	follow
after	pr	after
him	prn.obj.p3.m.sg	him
.	sent	.
</s>
</v>
<v at="1:37">
<s>
And	cnjcoo	and
when	cnjadv	when
they	prn.subj.p3.mf.pl	they
had	vbhaver.past	have
found	vblex.pp	find
him	prn.obj.p3.m.sg	him
,	cm	,
they	prn.subj.p3.mf.pl	they
said	vblex.past	say
unto	pr	unto
him	prn.obj.p3.m.sg	him
,	cm	,
All	predet.sp	all
men	n.pl	man
seek	vblex.pres	seek
for	pr	for
thee	prn.obj.p2.mf.sg	thou
.	sent	.
</s>
</v>
<v at="1:38">
<s>
And	cnjcoo	and
he	prn.subj.p3.m.sg	he
said	vblex.past	say
unto	pr	unto
them	prn.obj.p3.mf.pl	them
,	cm	,
Let	vblex.imp	let
us	prn.obj.p1.mf.pl	us
go	vblex.pres	go
into	pr	into
the	det.def.sp	the
next	adj	next
towns	n.pl	town
,	cm	,
that	cnjsub	that
I	prn.subj.p1.mf.sg.min	prpers
may	vbmod.pres	may
preach	vblex.inf	preach
there	adv	there
also	adv	also
:	sent	:
</s>
<s>
for	pr	for
therefore	cnjadv	therefore
came	vblex.past	come
I	prn.subj.p1.mf.sg.min	prpers
forth	adv	forth
.	sent	.
</s>
</v>
<v at="1:39">
<s>
And	cnjcoo	and
he	prn.subj.p3.m.sg	he
preached	vblex.past	preach
in	pr	in
their	det.pos.sp	their
synagogues	n.pl	synagogue
throughout	pr	throughout
all	prn.qnt.mf.sp	all
Galilee	unknown	Galilee
,	cm	,
and	cnjcoo	and
cast	vblex.past	cast
out	pr	out
devils	n.pl	devil
.	sent	.
</s>
</v>
<v at="1:40">
<s>
And	cnjcoo	and
there	adv	there
came	vblex.past	come
a	det.ind.sg	a
leper	unknown	leper
to	pr	to
him	prn.obj.p3.m.sg	him
,	cm	,
beseeching	unknown	beseeching
him	prn.obj.p3.m.sg	him
,	cm	,
and	cnjcoo	and
kneeling	vblex.ger	kneel
down	adv	down
to	pr	to
him	prn.obj.p3.m.sg	him
,	cm	,
and	cnjcoo	and
saying	n.sg	saying
unto	pr	unto
him	prn.obj.p3.m.sg	him
,	cm	,
If	cnjsub	if
thou	prn.subj.p2.mf.sg	thou
wilt	vbmod.pres.p2.sg	will
,	cm	,
thou	prn.subj.p2.mf.sg	thou
canst	vbmod.pres	can
make	vblex.inf	make
me	prn.obj.p1.mf.sg	me
clean	adj.sint	clean
.	sent	.
</s>
</v>
<v at="1:41">
<s>
And	cnjcoo	and
Jesus	np.ant.m.sg	Jesus
,	cm	,
moved	vblex.past	move
with	pr	with
compassion	n.sg	compassion
,	cm	,
put	vblex.imp	put
forth	adv	forth
his	det.pos.sp	his
hand	n.sg	hand
,	cm	,
and	cnjcoo	and
touched	vblex.past	touch
him	prn.obj.p3.m.sg	him
,	cm	,
and	cnjcoo	and
saith	vblex.pres.p3.sg	say
unto	pr	unto
him	prn.obj.p3.m.sg	him
,	cm	,
I	prn.subj.p1.mf.sg.min	prpers
will	vbmod.pres	will
;	sent	;
</s>
<s>
be	vbser.inf	be
thou	prn.subj.p2.mf.sg	thou
clean	adj.sint	clean
.	sent	.
</s>
</v>
<v at="1:42">
<s>
And	cnjcoo	and
as soon as	cnjadv	as soon as
he	prn.subj.p3.m.sg	he
had	vbhaver.past	have
spoken	vblex.pp	speak
,	cm	,
immediately	adv	immediately
the	det.def.sp	the
leprosy	n.sg	leprosy
departed	vblex.past	depart
from	pr	from
him	prn.obj.p3.m.sg	him
,	cm	,
and	cnjcoo	and
he	prn.subj.p3.m.sg	he
was	vbser.past.p1.sg	be
cleansed	unknown	cleansed
.	sent	.
</s>
</v>
<v at="1:43">
<s>
And	cnjcoo	and
he	prn.subj.p3.m.sg	he
straitly	unknown	straitly
charged	vblex.past	charge
him	prn.obj.p3.m.sg	him
,	cm	,
and	cnjcoo	and
forthwith	adv	forthwith
sent	vblex.past	send
him	prn.obj.p3.m.sg	him
away	adv	away
;	sent	;
</s>
</v>
<v at="1:44">
<s>
And	cnjcoo	and
saith	vblex.pres.p3.sg	say
unto	pr	unto
him	prn.obj.p3.m.sg	him
,	cm	,
See	vblex.imp	see
thou	prn.subj.p2.mf.sg	thou
say	vblex.pres	say
nothing	prn.ind.mf.sg	nothing
to	pr	to
any	det.ind.sp	any
man	n.sg	man
:	sent	:
</s>
<s>
but	cnjcoo	but
go	vblex.inf	go
thy	det.pos.sp	thy
way	n.sg	way
,	cm	,
shew	unknown	shew
thyself	prn.ref.p2.mf.sg	yourself
to	pr	to
the	det.def.sp	the
priest	n.sg	priest
,	cm	,
and	cnjcoo	and
offer	n.sg	offer
for	pr	for
thy	det.pos.sp	thy
cleansing	adj	cleansing
those	det.dem.pl	that
things	n.pl	thing
which	prn.itg.mf.sp	which
Moses	np.cog.sg	Moses
commanded	vblex.past	command
,	cm	,
for	pr	for
a	det.ind.sg	a
testimony	n.sg	testimony
unto	pr	unto
them	prn.obj.p3.mf.pl	them
.	sent	.
</s>
</v>
<v at="1:45">
<s>
But	cnjcoo	but
he	prn.subj.p3.m.sg	he
went out	vblex.past	go out
,	cm	,
and	cnjcoo	and
began	vblex.past	begin
to	pr	to
publish	vblex.inf	publish
it	prn.obj.p3.nt.sg	it
much	adv	much
,	cm	,
and	cnjcoo	and
to	pr	to
blaze	unknown	blaze
abroad	adv	abroad
the	det.def.sp	the
matter	n.sg	matter
,	cm	,
insomuch	unknown	insomuch
that	cnjsub	that
Jesus	np.ant.m.sg	Jesus
could	vbmod.past	can
no	adv	no
more	adv	more
openly	adv	openly
enter	vblex.pres	enter
into	pr	into
the	det.def.sp	the
city	n.sg	city
,	cm	,
but	cnjcoo	but
was	vbser.past.p3.sg	be
without	pr	without
in	pr	in
desert	n.sg	desert
places	n.pl	place
:	sent	:
</s>
<s>
and	cnjcoo	and
they	prn.subj.p3.mf.pl	they
came	vblex.past	come
to	pr	to
him	prn.obj.p3.m.sg	him
from	pr	from
every	det.ind.sg	every
quarter	n.sg	quarter
.	sent	.
</s>
</v>
<v at="2:1">
<s>
And	cnjcoo	and
again	adv	again
he	prn.subj.p3.m.sg	he
entered	vblex.past	enter
into	pr	into
Capernaum	unknown	Capernaum
after	pr	after
some	det.qnt.sp	some
days	n.pl	day
;	sent	;
</s>
<s>
and	cnjcoo	and
it	prn.subj.p3.nt.sg	it
was	vbser.past.p1.sg	be
noised	unknown	noised
that	cnjsub	that
he	prn.subj.p3.m.sg	he
was	vbser.past.p3.sg	be
in	pr	in
the	det.def.sp	the
house	n.sg	house
.	sent	.
</s>
</v>
<v at="2:2">
<s>
And	cnjcoo	and
straightway	adv	straightway
many	prn.ind.mf.pl	many
were	vbser.past	be
gathered	vblex.pp	gather
together	adj	together
,	cm	,
insomuch	unknown	insomuch
that	cnjsub	that
there	adv	there
was	vbser.past.p1.sg	be
no	det.ind.sp	no
room	n.sg	room
to	pr	to
receive	vblex.inf	receive
them	prn.obj.p3.mf.pl	them
,	cm	,
no	adv	no
,	cm	,
not	adv	not
so much	adv	so much
as	pr	as
about	pr	about
the	det.def.sp	the
door	n.sg	door
:	sent	:
</s>
<s>
and	cnjcoo	and
he	prn.subj.p3.m.sg	he
preached	vblex.past	preach
the	det.def.sp	the
word	n.sg	word
unto	pr	unto
them	prn.obj.p3.mf.pl	them
.	sent	.
</s>
</v>
<v at="2:3">
<s>
And	cnjcoo	and
they	prn.subj.p3.mf.pl	they
come	vblex.pres	come
unto	pr	unto
him	prn.obj.p3.m.sg	him
,	cm	,
bringing	vblex.pprs	bring
one	num.sg	one
sick	adj.sint	sick
of	pr	of
the	det.def.sp	the
palsy	unknown	palsy
,	cm	,
which	prn.itg.mf.sp	which
was	vbser.past.p3.sg	be
borne	vblex.pp	bear
of	pr	of
four	num.pl	four
.	sent	.
</s>
</v>
<v at="2:4">
<s>
And	cnjcoo	and
when	cnjadv	when
they	prn.subj.p3.mf.pl	they
could	vbmod.past	can
not	adv	not
come	vblex.inf	come
nigh	unknown	nigh
unto	pr	unto
him	prn.obj.p3.m.sg	him
for	pr	for
the	det.def.sp	the
press	n.sg	press
,	cm	,
they	prn.subj.p3.mf.pl	they
uncovered	vblex.past	uncover
the	det.def.sp	the
roof	n.sg	roof
where	adv	where
he	prn.subj.p3.m.sg	he
was	vbser.past.p1.sg	be
:	sent	:
</s>
<s>
and	cnjcoo	and
when	cnjadv	when
they	prn.subj.p3.mf.pl	they
had	vbhaver.past	have
broken	vblex.pp	break
it	prn.obj.p3.nt.sg	it
up	adv	up
,	cm	,
they	prn.subj.p3.mf.pl	they
let	vblex.past	let
down	adv	down
the	det.def.sp	the
bed	n.sg	bed
wherein	unknown	wherein
the	det.def.sp	the
sick	adj.sint	sick
of	pr	of
the	det.def.sp	the
palsy	unknown	palsy
lay	vblex.pres	lay
.	sent	.
</s>
</v>
<v at="2:5">
<s>
When	adv.itg	when
Jesus	np.ant.m.sg	Jesus
saw	vblex.past	see
their	det.pos.sp	their
faith	n.sg	faith
,	cm	,
he	prn.subj.p3.m.sg	he
said	vblex.past	say
unto	pr	unto
the	det.def.sp	the
sick	adj.sint	sick
of	pr	of
the	det.def.sp	the
palsy	unknown	palsy
,	cm	,
Son	n.sg	son
,	cm	,
thy	det.pos.sp	thy
sins	n.pl	sin
be	vbser.inf	be
forgiven	vblex.pp	forgive
thee	prn.obj.p2.mf.sg	thou
.	sent	.
</s>
</v>
<v at="2:6">
<s>
But	cnjcoo	but
there	adv	there
were	vbser.past	be
certain	adj	certain
of	pr	of
the	det.def.sp	the
scribes	n.pl	scribe
sitting	vblex.pprs	sit
there	adv	there
,	cm	,
and	cnjcoo	and
reasoning	vblex.subs	reason
in	pr	in
their	det.pos.sp	their
hearts	n.pl	heart
,	cm	,
</v>
<v at="2:7">
Why	adv.itg	why
doth	vbdo.pres.p3.sg	do
this	det.dem.sg	this
man	n.sg	man
thus	adv	thus
speak	vblex.pres	speak
blasphemies	n.pl	blasphemy
?	sent	?
</s>
<s>
who	prn.rel.an.mf.sp	who
can	vbmod.pres	can
forgive	vblex.inf	forgive
sins	n.pl	sin
but	cnjcoo	but
God	n.sg	god
only	adv	only
?	sent	?
</s>
</v>
<v at="2:8">
<s>
And	cnjcoo	and
immediately	adv	immediately
when	cnjadv	when
Jesus	np.ant.m.sg	Jesus
perceived	vblex.pp	perceive
in	pr	in
his	det.pos.sp	his
spirit	n.sg	spirit
that	cnjsub	that
they	prn.subj.p3.mf.pl	they
so	cnjadv	so
reasoned	vblex.pp	reason
within	pr	within
themselves	prn.ref.p3.mf.pl	themselves
,	cm	,
he	prn.subj.p3.m.sg	he
said	vblex.past	say
unto	pr	unto
them	prn.obj.p3.mf.pl	them
,	cm	,
Why	adv.itg	why
reason	n.sg	reason
ye	prn.subj.p2.mf.pl	ye
these	det.dem.pl	this
things	n.pl	thing
in	pr	in
your	det.pos.sp	your
hearts	n.pl	heart
?	sent	?
</s>
</v>
<v at="2:9">
<s>
Whether	cnjadv	whether
is	vbser.pres.p3.sg	be
it	prn.obj.p3.nt.sg	it
easier	adj.sint.comp	easy
to	pr	to
say	vblex.inf	say
to	pr	to
the	det.def.sp	the
sick	adj.sint	sick
of	pr	of
the	det.def.sp	the
palsy	unknown	palsy
,	cm	,
Thy	det.pos.sp	thy
sins	n.pl	sin
be	vbser.inf	be
forgiven	vblex.pp	forgive
thee	prn.obj.p2.mf.sg	thou
;	sent	;
</s>
<s>
or	cnjcoo	or
to	pr	to
say	vblex.inf	say
,	cm	,
Arise	vblex.imp	arise
,	cm	,
and	cnjcoo	and
take	vblex.pres	take
up	pr	up
thy	det.pos.sp	thy
bed	n.sg	bed
,	cm	,
and	cnjcoo	and
walk	n.sg	walk
?	sent	?
</s>
</v>
<v at="2:10">
<s>
But	cnjcoo	but
that	cnjsub	that
ye	prn.subj.p2.mf.pl	ye
may	vbmod.pres	may
know	vblex.inf	know
that	cnjsub	that
the	det.def.sp	the
Son	n.sg	son
of	pr	of
man	n.sg	man
hath	vbhaver.pres.p3.sg	have
power	n.sg	power
on	pr	on
earth	n.sg	earth
to	pr	to
forgive	vblex.inf	forgive
sins	n.pl	sin
,	cm	,
(	lpar	(
he	prn.subj.p3.m.sg	he
saith	vblex.pres.p3.sg	say
to	pr	to
the	det.def.sp	the
sick	adj.sint	sick
of	pr	of
the	det.def.sp	the
palsy	unknown	palsy
,	cm	,
)	rpar	)
</v>
<v at="2:11">
I	prn.subj.p1.mf.sg.min	prpers
say	vblex.pres	say
unto	pr	unto
thee	prn.obj.p2.mf.sg	thou
,	cm	,
Arise	vblex.imp	arise
,	cm	,
and	cnjcoo	and
take	vblex.pres	take
up	pr	up
thy	det.pos.sp	thy
bed	n.sg	bed
,	cm	,
and	cnjcoo	and
go	vblex.pres	go
thy	det.pos.sp	thy
way	n.sg	way
into	pr	into
thine	det.pos.sp	thine
house	n.sg	house
.	sent	.
</s>
</v>
<v at="2:12">
<s>
And	cnjcoo	and
immediately	adv	immediately
he	prn.subj.p3.m.sg	he
arose	vblex.past	arise
,	cm	,
took	vblex.past	take
up	pr	up
the	det.def.sp	the
bed	n.sg	bed
,	cm	,
and	cnjcoo	and
went	vblex.past	go
forth	adv	forth
before	pr	before
them	prn.obj.p3.mf.pl	them
all	prn.qnt.mf.sp	all
;	sent	;
</s>
<s>
insomuch	unknown	insomuch
that	cnjsub	that
they	prn.subj.p3.mf.pl	they
were	vbser.past	be
all	predet.sp	all
amazed	vblex.pp	amaze
,	cm	,
and	cnjcoo	and
glorified	vblex.past	glorify
God	n.sg	god
,	cm	,
saying	vblex.pprs	say
,	cm	,
We	prn.subj.p1.mf.pl	prpers
never	adv	never
saw	vblex.past	see
it	prn.obj.p3.nt.sg	it
on	pr	on
this	det.dem.sg	this
fashion	n.sg	fashion
.	sent	.
</s>
</v>
<v at="2:13">
<s>
And	cnjcoo	and
he	prn.subj.p3.m.sg	he
went	vblex.past	go
forth	adv	forth
again	adv	again
by	pr	by
the	det.def.sp	the
sea	n.sg	sea
side	n.sg	side
;	sent	;
</s>
<s>
and	cnjcoo	and
all	predet.sp	all
the	det.def.sp	the
multitude	n.sg	multitude
resorted	vblex.past	resort
unto	pr	unto
him	prn.obj.p3.m.sg	him
,	cm	,
and	cnjcoo	and
he	prn.subj.p3.m.sg	he
taught	vblex.past	teach
them	prn.obj.p3.mf.pl	them
.	sent	.
</s>
</v>
<v at="2:14">
<s>
And	cnjcoo	and
as	cnjadv	as
he	prn.subj.p3.m.sg	he
passed	vblex.past	pass
by	pr	by
,	cm	,
he	prn.subj.p3.m.sg	he
saw	vblex.past	see
Levi	np.ant.m.sg	Levi
the	det.def.sp	the
son	n.sg	son
of	pr	of
Alphaeus	unknown	Alphaeus
sitting	vblex.subs	sit
at	pr	at
the	det.def.sp	the
receipt	n.sg	receipt
of	pr	of
custom	adj	custom
,	cm	,
and	cnjcoo	and
said	vblex.past	say
unto	pr	unto
him	prn.obj.p3.m.sg	him
,	cm	,
Follow	vblex.imp	follow
me	prn.obj.p1.mf.sg	me
.	sent	.
</s>
<s>
And	cnjcoo	and
he	prn.subj.p3.m.sg	he
arose	vblex.past	arise
and	cnjcoo	and
followed	vblex.past	follow
him	prn.obj.p3.m.sg	him
.	sent	.
</s>
</v>
<v at="2:15">
<s>
And	cnjcoo	and
it	prn.subj.p3.nt.sg	it
came	vblex.past	come
to	pr	to
pass	vblex.inf	pass
,	cm	,
that	cnjsub	that
,	cm	,
as	cnjadv	as
Jesus	np.ant.m.sg	Jesus
sat	vblex.past	sit
at	pr	at
meat	n.sg	meat
in	pr	in
his	det.pos.sp	his
house	n.sg	house
,	cm	,
many	prn.ind.mf.pl	many
publicans	unknown	publicans
and	cnjcoo	and
sinners	n.pl	sinner
sat	vblex.past	sit
also	adv	also
together with	pr	together with
Jesus	np.ant.m.sg	Jesus
and	cnjcoo	and
his	adj.pos.pred	his
disciples	n.pl	disciple
:	sent	:
</s>
<s>
for	pr	for
there	adv	there
were	vbser.past	be
many	prn.ind.mf.pl	many
,	cm	,
and	cnjcoo	and
they	prn.subj.p3.mf.pl	they
followed	vblex.past	follow
him	prn.obj.p3.m.sg	him
.	sent	.
</s>
</v>
<v at="2:16">
<s>
And	cnjcoo	and
when	cnjadv	when
the	det.def.sp	the
scribes	n.pl	scribe
and	cnjcoo	and
Pharisees	unknown	Pharisees
saw	vblex.past	see
him	prn.obj.p3.m.sg	him
eat	vblex.pres	eat
with	pr	with
publicans	unknown	publicans
and	cnjcoo	and
sinners	n.pl	sinner
,	cm	,
they	prn.subj.p3.mf.pl	they
said	vblex.past	say
unto	pr	unto
his	adj.pos.pred	his
disciples	n.pl	disciple
,	cm	,
How	preadv	how
is	vbser.pres.p3.sg	be
it	prn.subj.p3.nt.sg	it
that	cnjsub	that
he	prn.subj.p3.m.sg	he
eateth	unknown	eateth
and	cnjcoo	and
drinketh	unknown	drinketh
with	pr	with
publicans	unknown	publicans
and	cnjcoo	and
sinners	n.pl	sinner
?	sent	?
</s>
</v>
<v at="2:17">
<s>
When	adv.itg	when
Jesus	np.ant.m.sg	Jesus
heard	vblex.past	hear
it	prn.obj.p3.nt.sg	it
,	cm	,
he	prn.subj.p3.m.sg	he
saith	vblex.pres.p3.sg	say
unto	pr	unto
them	prn.obj.p3.mf.pl	them
,	cm	,
They	prn.subj.p3.mf.pl	prpers
that	cnjsub	that
are	vbser.pres	be
whole	n.sg	whole
have	vblex.pres	have
no	det.ind.sp	no
need	n.sg	need
of	pr	of
the	det.def.sp	the
physician	n.sg	physician
,	cm	,
but	cnjcoo	but
they	prn.subj.p3.mf.pl	they
that	cnjsub	that
are	vbser.pres	be
sick	adj.sint	sick
:	sent	:
</s>
<s>
I	prn.subj.p1.mf.sg	prpers
came	vblex.past	come
not	adv	not
to	pr	to
call	vblex.inf	call
the	det.def.sp	the
righteous	unknown	righteous
,	cm	,
but	cnjcoo	but
sinners	n.pl	sinner
to	pr	to
repentance	unknown	repentance
.	sent	.
</s>
</v>
<v at="2:18">
<s>
And	cnjcoo	and
the	det.def.sp	the
disciples	n.pl	disciple
of	pr	of
John	np.ant.m.sg	John
and	cnjcoo	and
of	pr	of
the	det.def.sp	the
Pharisees	unknown	Pharisees
used to	vblex.past	use to
fast	adj.sint	fast
:	sent	:
</s>
<s>
and	cnjcoo	and
they	prn.subj.p3.mf.pl	they
come	vblex.pres	come
and	cnjcoo	and
say	vblex.pres	say
unto	pr	unto
him	prn.obj.p3.m.sg	him
,	cm	,
Why	adv.itg	why
do	vblex.pres	do
the	det.def.sp	the
disciples	n.pl	disciple
of	pr	of
John	np.cog.sg	John
and	cnjcoo	and
of	pr	of
the	det.def.sp	the
Pharisees	unknown	Pharisees
fast	adv	fast
,	cm	,
but	cnjcoo	but
thy	det.pos.sp	thy
disciples	n.pl	disciple
fast	adv	fast
not	adv	not
?	sent	?
</s>
</v>
<v at="2:19">
<s>
And	cnjcoo	and
Jesus	np.ant.m.sg	Jesus
said	vblex.past	say
unto	pr	unto
them	prn.obj.p3.mf.pl	them
,	cm	,
Can	vblex.imp	can
the	det.def.sp	the
children	n.pl	child
of	pr	of
the	det.def.sp	the
bridechamber	unknown	bridechamber
fast	n.sg	fast
,	cm	,
while	cnjadv	while
the	det.def.sp	the
bridegroom	n.sg	bridegroom
is	vbser.pres.p3.sg	be
with	pr	with
them	prn.obj.p3.mf.pl	them
?	sent	?
</s>
<s>
as	preadv	as
long	adv	long
as	cnjadv	as
they	prn.subj.p3.mf.pl	they
have	vblex.pres	have
the	det.def.sp	the
bridegroom	n.sg	bridegroom
with	pr	with
them	prn.obj.p3.mf.pl	them
,	cm	,
they	prn.subj.p3.mf.pl	they
cannot	vbmod.pres	can
fast	n.sg	fast
.	sent	.
</s>
</v>
<v at="2:20">
<s>
But	cnjcoo	but
the	det.def.sp	the
days	n.pl	day
will	vbmod.pres	will
come	vblex.inf	come
,	cm	,
when	cnjadv	when
the	det.def.sp	the
bridegroom	n.sg	bridegroom
shall	vbmod.pres	shall
be	vbser.inf	be
taken away	vblex.sep.pp	take away
from	pr	from
them	prn.obj.p3.mf.pl	them
,	cm	,
and	cnjcoo	and
then	cnjadv	then
shall	vbmod.pres	shall
they	prn.subj.p3.mf.pl	they
fast	adv	fast
in	pr	in
those	det.dem.pl	that
days	n.pl	day
.	sent	.
</s>
</v>
<v at="2:21">
<s>
No	det.ind.sp	no
man	n.sg	man
also	adv	also
seweth	unknown	seweth
a	det.ind.sg	a
piece	n.sg	piece
of	pr	of
new	adj.sint	new
cloth	n.sg	cloth
on	pr	on
an	det.ind.sg	a
old	adj.sint	old
garment	n.sg	garment
:	sent	:
</s>
<s>
else	adv	else
the	det.def.sp	the
new	adj.sint	new
piece	n.sg	piece
that	prn.rel.an.mf.sp	that
filled	vblex.past	fill
it	prn.obj.p3.nt.sg	it
up	adv	up
taketh	vblex.pres.p3.sg	take
away from	pr	away from
the	det.def.sp	the
old	adj.sint	old
,	cm	,
and	cnjcoo	and
the	det.def.sp	the
rent	n.sg	rent
is	vbser.pres.p3.sg	be
made	vblex.pp	make
worse	adj.sint.comp	bad
.	sent	.
</s>
</v>
<v at="2:22">
<s>
And	cnjcoo	and
no	det.ind.sp	no
man	n.sg	man
putteth	unknown	putteth
new	adj.sint	new
wine	n.sg	wine
into	pr	into
old	adj.sint	old
bottles	n.pl	bottle
:	sent	:
</s>
<s>
else	adv	else
the	det.def.sp	the
new	adj.sint	new
wine	n.sg	wine
doth	vbdo.pres.p3.sg	do
burst	vblex.past	burst
the	det.def.sp	the
bottles	n.pl	bottle
,	cm	,
and	cnjcoo	and
the	det.def.sp	the
wine	n.sg	wine
is	vbser.pres.p3.sg	be
spilled	vblex.pp	spill
,	cm	,
and	cnjcoo	and
the	det.def.sp	the
bottles	n.pl	bottle
will	vbmod.pres	will
be	vbser.inf	be
marred	vblex.pp	mar
:	sent	:
</s>
<s>
but	cnjcoo	but
new	adj.sint	new
wine	n.sg	wine
must	vbmod.pres	must
be	vbser.inf	be
put	vblex.pp	put
into	pr	into
new	adj.sint	new
bottles	n.pl	bottle
.	sent	.
</s>
</v>
<v at="2:23">
<s>
And	cnjcoo	and
it	prn.subj.p3.nt.sg	it
came	vblex.past	come
to	pr	to
pass	vblex.inf	pass
,	cm	,
that	cnjsub	that
he	prn.subj.p3.m.sg	he
went through	vblex.past	go through
the	det.def.sp	the
corn	n.sg	corn
fields	vblex.pres.p3.sg	field
on	pr	on
the	det.def.sp	the
sabbath	n.sg	sabbath
day	n.sg	day
;	sent	;
</s>
<s>
and	cnjcoo	and
his	adj.pos.pred	his
disciples	n.pl	disciple
began	vblex.past	begin
,	cm	,
as	cnjadv	as
they	prn.subj.p3.mf.pl	they
went	vblex.past	go
,	cm	,
to	pr	to
pluck	vblex.inf	pluck
the	det.def.sp	the
ears	n.pl	ear
of	pr	of
corn	n.sg	corn
.	sent	.
</s>
</v>
<v at="2:24">
<s>
And	cnjcoo	and
the	det.def.sp	the
Pharisees	unknown	Pharisees
said	vblex.past	say
unto	pr	unto
him	prn.obj.p3.m.sg	him
,	cm	,
Behold	vblex.imp	behold
,	cm	,
why	adv.itg	why
do	vblex.inf	do
they	prn.subj.p3.mf.pl	they
on	pr	on
the	det.def.sp	the
sabbath	n.sg	sabbath
day	n.sg	day
that	cnjsub	that
which	prn.itg.mf.sp	which
is	vbser.pres.p3.sg	be
not	adv	not
lawful	adj	lawful
?	sent	?
</s>
</v>
<v at="2:25">
<s>
And	cnjcoo	and
he	prn.subj.p3.m.sg	he
said	vblex.past	say
unto	pr	unto
them	prn.obj.p3.mf.pl	them
,	cm	,
Have	vblex.imp	have
ye	prn.subj.p2.mf.pl	ye
never	adv	never
read	vblex.past	read
what	prn.rel.nn.mf.sg	what
David	np.ant.m.sg	David
did	vblex.past	do
,	cm	,
when	cnjadv	when
he	prn.subj.p3.m.sg	he
had	vblex.past	have
need	n.sg	need
,	cm	,
and	cnjcoo	and
was	vbser.past.p1.sg	be
an	det.ind.sg	a
hungred	unknown	hungred
,	cm	,
he	prn.subj.p3.m.sg	he
,	cm	,
and	cnjcoo	and
they	prn.subj.p3.mf.pl	they
that	cnjsub	that
were	vbser.past	be
with	pr	with
him	prn.obj.p3.m.sg	him
?	sent	?
</s>
</v>
<v at="2:26">
<s>
How	adv.itg	how
he	prn.subj.p3.m.sg	he
went	vblex.past	go
into	pr	into
the	det.def.sp	the
house	n.sg	house
of	pr	of
God	n.sg	god
in	pr	in
the	det.def.sp	the
days	n.pl	day
of	pr	of
Abiathar	unknown	Abiathar
the	det.def.sp	the
high	adj.sint	high
priest	n.sg	priest
,	cm	,
and	cnjcoo	and
did	vbdo.past	do
eat	vblex.inf	eat
the	det.def.sp	the
shewbread	unknown	shewbread
,	cm	,
which	prn.itg.mf.sp	which
is	vbser.pres.p3.sg	be
not	adv	not
lawful	adj	lawful
to	pr	to
eat	vblex.inf	eat
but	cnjcoo	but
for	pr	for
the	det.def.sp	the
priests	n.pl	priest
,	cm	,
and	cnjcoo	and
gave	vblex.past	give
also	adv	also
to	pr	to
them	prn.obj.p3.mf.pl	them
which	prn.itg.mf.sp	which
were	vbser.past	be
with	pr	with
him	prn.obj.p3.m.sg	him
?	sent	?
</s>
</v>
<v at="2:27">
<s>
And	cnjcoo	and
he	prn.subj.p3.m.sg	he
said	vblex.past	say
unto	pr	unto
them	prn.obj.p3.mf.pl	them
,	cm	,
The	det.def.sp	the
sabbath	n.sg	sabbath
was	vbser.past.p1.sg	be
made	vblex.pp	make
for	pr	for
man	n.sg	man
,	cm	,
and	cnjcoo	and
not	adv	not
man	n.sg	man
for	pr	for
the	det.def.sp	the
sabbath	n.sg	sabbath
:	sent	:
</s>
</v>
<v at="2:28">
<s>
Therefore	adv	therefore
the	det.def.sp	the
Son	n.sg	son
of	pr	of
man	n.sg	man
is	vbser.pres.p3.sg	be
Lord	np.cog.sg	Lord
also	adv	also
of	pr	of
the	det.def.sp	the
sabbath	n.sg	sabbath
.	sent	.
</s>
</v>
<v at="3:1">
<s>
And	cnjcoo	and
he	prn.subj.p3.m.sg	he
entered	vblex.past	enter
again	adv	again
into	pr	into
the	det.def.sp	the
synagogue	n.sg	synagogue
;	sent	;
</s>
<s>
and	cnjcoo	and
there	adv	there
was	vbser.past.p1.sg	be
a	det.ind.sg	a
man	n.sg	man
there	adv	there
which	prn.itg.mf.sp	which
had	vblex.past	have
a	det.ind.sg	a
withered	adj	withered
hand	n.sg	hand
.	sent	.
</s>
</v>
<v at="3:2">
<s>
And	cnjcoo	and
they	prn.subj.p3.mf.pl	they
watched	vblex.past	watch
him	prn.obj.p3.m.sg	him
,	cm	,
whether	cnjadv	whether
he	prn.subj.p3.m.sg	he
would	vbmod.past	will
heal	vblex.inf	heal
him	prn.obj.p3.m.sg	him
on	pr	on
the	det.def.sp	the
sabbath	n.sg	sabbath
day	n.sg	day
;	sent	;
</s>
<s>
that	prn.dem.mf.sg	that
they	prn.subj.p3.mf.pl	they
might	vbmod.pres	might
accuse	vblex.inf	accuse
him	prn.obj.p3.m.sg	him
.	sent	.
</s>
</v>
<v at="3:3">
<s>
And	cnjcoo	and
he	prn.subj.p3.m.sg	he
saith	vblex.pres.p3.sg	say
unto	pr	unto
the	det.def.sp	the
man	n.sg	man
which	prn.itg.mf.sp	which
had	vblex.past	have
the	det.def.sp	the
withered	adj	withered
hand	n.sg	hand
,	cm	,
Stand	n.sg	stand
forth	adv	forth
.	sent	.
</s>
</v>
<v at="3:4">
<s>
And	cnjcoo	and
he	prn.subj.p3.m.sg	he
saith	vblex.pres.p3.sg	say
unto	pr	unto
them	prn.obj.p3.mf.pl	them
,	cm	,
Is	vbser.pres.p3.sg	be
it	prn.obj.p3.nt.sg	it
lawful	adj	lawful
to	pr	to
do	vblex.inf	do
good	adv	good
on	pr	on
the	det.def.sp	the
sabbath	n.sg	sabbath
days	n.pl	day
,	cm	,
or	cnjcoo	or
to	pr	to
do	vblex.inf	do
evil	n.sg	evil
?	sent	?
</s>
<s>
to	pr	to
save	vblex.inf	save
life	n.sg	life
,	cm	,
or	cnjcoo	or
to	pr	to
kill	vblex.inf	kill
?	sent	?
</s>
<s>
But	cnjcoo	but
they	prn.subj.p3.mf.pl	they
held	vblex.past	hold
their	det.pos.sp	their
peace	n.sg	peace
.	sent	.
</s>
</v>
<v at="3:5">
<s>
And	cnjcoo	and
when	cnjadv	when
he	prn.subj.p3.m.sg	he
had	vbhaver.past	have
looked	vblex.pp	look
round	pr	round
about	adv	about
on	pr	on
them	prn.obj.p3.mf.pl	them
with	pr	with
anger	n.sg	anger
,	cm	,
being	vbser.ger	be
grieved	vblex.pp	grieve
for	pr	for
the	det.def.sp	the
hardness	n.sg	hardness
of	pr	of
their	det.pos.sp	their
hearts	n.pl	heart
,	cm	,
he	prn.subj.p3.m.sg	he
saith	vblex.pres.p3.sg	say
unto	pr	unto
the	det.def.sp	the
man	n.sg	man
,	cm	,
Stretch	n.sg	stretch
forth	adv	forth
thine	det.pos.sp	thine
hand	n.sg	hand
.	sent	.
</s>
<s>
And	cnjcoo	and
he	prn.subj.p3.m.sg	he
stretched	vblex.past	stretch
it	prn.obj.p3.nt.sg	it
out	adv	out
:	sent	:
</s>
<s>
and	cnjcoo	and
his	det.pos.sp	his
hand	n.sg	hand
was	vbser.past.p3.sg	be
restored	vblex.pp	restore
whole	adj	whole
as	pr	as
the other	prn.dem.mf.sg	the other
.	sent	.
</s>
</v>
<v at="3:6">
<s>
And	cnjcoo	and
the	det.def.sp	the
Pharisees	unknown	Pharisees
went	vblex.past	go
forth	adv	forth
,	cm	,
and	cnjcoo	and
straightway	adv	straightway
took	vblex.past	take
counsel	n.sg	counsel
with	pr	with
the	det.def.sp	the
Herodians	unknown	Herodians
against	pr	against
him	prn.obj.p3.m.sg	him
,	cm	,
how	adv.itg	how
they	prn.subj.p3.mf.pl	they
might	vbmod.pres	might
destroy	vblex.inf	destroy
him	prn.obj.p3.m.sg	him
.	sent	.
</s>
</v>
<v at="3:7">
<s>
But	cnjcoo	but
Jesus	np.ant.m.sg	Jesus
withdrew	vblex.past	withdraw
himself	prn.ref.p3.m.sg	himself
with	pr	with
his	adj.pos.pred	his
disciples	n.pl	disciple
to	pr	to
the	det.def.sp	the
sea	n.sg	sea
:	sent	:
</s>
<s>
and	cnjcoo	and
a	det.ind.sg	a
great	adj.sint	great
multitude	n.sg	multitude
from	pr	from
Galilee	unknown	Galilee
followed	vblex.past	follow
him	prn.obj.p3.m.sg	him
,	cm	,
and	cnjcoo	and
from	pr	from
Judaea	unknown	Judaea
,	cm	,
</v>
<v at="3:8">
And	cnjcoo	and
from	pr	from
Jerusalem	np.top.sg	Jerusalem
,	cm	,
and	cnjcoo	and
from	pr	from
Idumaea	unknown	Idumaea
,	cm	,
and	cnjcoo	and
from	pr	from
beyond	pr	beyond
Jordan	np.top.sg	Jordan
;	sent	;
</s>
<s>
and	cnjcoo	and
they	prn.subj.p3.mf.pl	they
about	pr	about
Tyre	n.sg	tyre
and	cnjcoo	and
Sidon	np.top.sg	Sidon
,	cm	,
a	det.ind.sg	a
great	adj.sint	great
multitude	n.sg	multitude
,	cm	,
when	cnjadv	when
they	prn.subj.p3.mf.pl	they
had	vbhaver.past	have
heard	vblex.pp	hear
what	det.itg.sp	what
great	adj.sint	great
things	n.pl	thing
he	prn.subj.p3.m.sg	he
did	vblex.past	do
,	cm	,
came	vblex.past	come
unto	pr	unto
him	prn.obj.p3.m.sg	him
.	sent	.
</s>
</v>
<v at="3:9">
<s>
And	cnjcoo	and
he	prn.subj.p3.m.sg	he
spake	vblex.past	speak
to	pr	to
his	adj.pos.pred	his
disciples	n.pl	disciple
,	cm	,
that	cnjsub	that
a	det.ind.sg	a
small	adj.sint	small
ship	n.sg	ship
should	vbmod.past	shall
wait	vblex.inf	wait
on	pr	on
him	prn.obj.p3.m.sg	him
because of	pr	because of
the	det.def.sp	the
multitude	n.sg	multitude
,	cm	,
lest	unknown	lest
they	prn.subj.p3.mf.pl	they
should	vbmod.past	shall
throng	unknown	throng
him	prn.obj.p3.m.sg	him
.	sent	.
</s>
</v>
<v at="3:10">
<s>
For	pr	for
he	prn.subj.p3.m.sg	he
had	vbhaver.past	have
healed	vblex.pp	heal
many	prn.ind.mf.pl	many
;	sent	;
</s>
<s>
insomuch	unknown	insomuch
that	cnjsub	that
they	prn.subj.p3.mf.pl	they
pressed	vblex.past	press
upon	pr	upon
him	prn.obj.p3.m.sg	him
for	pr	for
to	pr	to
touch	vblex.inf	touch
him	prn.obj.p3.m.sg	him
,	cm	,
as	pr	as
many	prn.ind.mf.pl	many
as	pr	as
had	vblex.past	have
plagues	n.pl	plague
.	sent	.
</s>
</v>
<v at="3:11">
<s>
And	cnjcoo	and
unclean	unknown	unclean
spirits	n.pl	spirit
,	cm	,
when	cnjadv	when
they	prn.subj.p3.mf.pl	they
saw	vblex.past	see
him	prn.obj.p3.m.sg	him
,	cm	,
fell down	vblex.past	fall down
before	pr	before
him	prn.obj.p3.m.sg	him
,	cm	,
and	cnjcoo	and
cried	vblex.past	cry
,	cm	,
saying	vblex.pprs	say
,	cm	,
Thou	prn.subj.p2.mf.sg	thou
art	vbser.pres.p2.sg	be
the	det.def.sp	the
Son	n.sg	son
of	pr	of
God	n.sg	god
.	sent	.
</s>
</v>
<v at="3:12">
<s>
And	cnjcoo	and
he	prn.subj.p3.m.sg	he
straitly	unknown	straitly
charged	vblex.past	charge
them	prn.obj.p3.mf.pl	them
that	cnjsub	that
they	prn.subj.p3.mf.pl	they
should	vbmod.past	shall
not	adv	not
make	vblex.inf	make
him	prn.obj.p3.m.sg	him
known	vblex.pp	know
.	sent	.
</s>
</v>
<v at="3:13">
<s>
And	cnjcoo	and
he	prn.subj.p3.m.sg	he
goeth	vblex.pres.p3.sg	go
up	adv	up
into	pr	into
a	det.ind.sg	a
mountain	n.sg	mountain
,	cm	,
and	cnjcoo	and
calleth	unknown	calleth
unto	pr	unto
him	prn.obj.p3.m.sg	him
whom	prn.rel.an.mf.sp	whom
he	prn.subj.p3.m.sg	he
would	vbmod.past	will
:	sent	:
</s>
<s>
and	cnjcoo	and
they	prn.subj.p3.mf.pl	they
came	vblex.past	come
unto	pr	unto
him	prn.obj.p3.m.sg	him
.	sent	.
</s>
</v>
<v at="3:14">
<s>
And	cnjcoo	and
he	prn.subj.p3.m.sg	he
ordained	vblex.past	ordain
twelve	num.pl	twelve
,	cm	,
that	cnjsub	that
they	prn.subj.p3.mf.pl	they
should	vbmod.past	shall
be	vbser.inf	be
with	pr	with
him	prn.obj.p3.m.sg	him
,	cm	,
and	cnjcoo	and
that	cnjsub	that
he	prn.subj.p3.m.sg	he
might	vbmod.pres	might
send	vblex.inf	send
them	prn.obj.p3.mf.pl	them
forth	adv	forth
to	pr	to
preach	vblex.inf	preach
,	cm	,
</v>
<v at="3:15">
And	cnjcoo	and
to	pr	to
have	vblex.inf	have
power	n.sg	power
to	pr	to
heal	vblex.inf	heal
sicknesses	n.pl	sickness
,	cm	,
and	cnjcoo	and
to	pr	to
cast	vblex.inf	cast
out	pr	out
devils	n.pl	devil
:	sent	:
</s>
</v>
<v at="3:16">
<s>
And	cnjcoo	and
Simon	np.cog.sg	Simon
he	prn.subj.p3.m.sg	he
surnamed	unknown	surnamed
Peter	np.ant.m.sg	Peter
;	sent	;
</s>
</v>
<v at="3:17">
<s>
And	cnjcoo	and
James	np.cog.sg	James
the	det.def.sp	the
son	n.sg	son
of	pr	of
Zebedee	unknown	Zebedee
,	cm	,
and	cnjcoo	and
John	np.ant.m.sg	John
the	det.def.sp	the
brother	n.sg	brother
of	pr	of
James	np.ant.m.sg	James
;	sent	;
</s>
<s>
and	cnjcoo	and
he	prn.subj.p3.m.sg	he
surnamed	unknown	surnamed
them	prn.obj.p3.mf.pl	them
Boanerges	unknown	Boanerges
,	cm	,
which	prn.itg.mf.sp	which
is	vbser.pres.p3.sg	be
,	cm	,
The	det.def.sp	the
sons	n.pl	son
of	pr	of
thunder	n.sg	thunder
:	sent	:
</s>
</v>
<v at="3:18">
<s>
And	cnjcoo	and
Andrew	np.cog.sg	Andrew
,	cm	,
and	cnjcoo	and
Philip	np.ant.m.sg	Philip
,	cm	,
and	cnjcoo	and
Bartholomew	np.ant.m.sg	Bartholomew
,	cm	,
and	cnjcoo	and
Matthew	np.ant.m.sg	Matthew
,	cm	,
and	cnjcoo	and
Thomas	np.ant.m.sg	Thomas
,	cm	,
and	cnjcoo	and
James	np.ant.m.sg	James
the	det.def.sp	the
son	n.sg	son
of	pr	of
Alphaeus	unknown	Alphaeus
,	cm	,
and	cnjcoo	and
Thaddaeus	unknown	Thaddaeus
,	cm	,
and	cnjcoo	and
Simon	np.ant.m.sg	Simon
the	det.def.sp	the
Canaanite	adj	canaanite
,	cm	,
</v>
<v at="3:19">
And	cnjcoo	and
Judas	np.ant.m.sg	Judas
Iscariot	unknown	Iscariot
,	cm	,
which	prn.itg.mf.sp	which
also	adv	also
betrayed	vblex.past	betray
him	prn.obj.p3.m.sg	him
:	sent	:
</s>
<s>
and	cnjcoo	and
they	prn.subj.p3.mf.pl	they
went	vblex.past	go
into	pr	into
an	det.ind.sg	a
house	n.sg	house
.	sent	.
</s>
</v>
<v at="3:20">
<s>
And	cnjcoo	and
the	det.def.sp	the
multitude	n.sg	multitude
cometh	vblex.pres.p3.sg	come
together	adj	together
again	adv	again
,	cm	,
so that	cnjadv	so that
they	prn.subj.p3.mf.pl	they
could	vbmod.past	can
not	adv	not
so much	adv	so much
as	pr	as
eat	vblex.inf	eat
bread	n.sg	bread
.	sent	.
</s>
</v>
<v at="3:21">
<s>
And	cnjcoo	and
when	cnjadv	when
his	adj.pos.pred	his
friends	n.pl	friend
heard	vblex.past	hear
of	pr	of
it	prn.obj.p3.nt.sg	it
,	cm	,
they	prn.subj.p3.mf.pl	they
went out	vblex.past	go out
to	pr	to
lay	vblex.inf	lay
hold	n.sg	hold
on	pr	on
him	prn.obj.p3.m.sg	him
:	sent	:
</s>
<s>
for	pr	for
they	prn.subj.p3.mf.pl	they
said	vblex.past	say
,	cm	,
He	prn.subj.p3.m.sg	prpers
is	vbser.pres.p3.sg	be
beside	pr	beside
himself	prn.ref.p3.m.sg	himself
.	sent	.
</s>
</v>
<v at="3:22">
<s>
And	cnjcoo	and
the	det.def.sp	the
scribes	n.pl	scribe
which	prn.itg.mf.sp	which
came	vblex.past	come
down	adv	down
from	pr	from
Jerusalem	np.top.sg	Jerusalem
said	vblex.past	say
,	cm	,
He	prn.subj.p3.m.sg	prpers
hath	vbhaver.pres.p3.sg	have
Beelzebub	unknown	Beelzebub
,	cm	,
and	cnjcoo	and
by	pr	by
the	det.def.sp	the
prince	n.sg	prince
of	pr	of
the	det.def.sp	the
devils	n.pl	devil
casteth	unknown	casteth
he	prn.subj.p3.m.sg	he
out	pr	out
devils	n.pl	devil
.	sent	.
</s>
</v>
<v at="3:23">
<s>
And	cnjcoo	and
he	prn.subj.p3.m.sg	he
called	vblex.past	call
them	prn.obj.p3.mf.pl	them
unto	pr	unto
him	prn.obj.p3.m.sg	him
,	cm	,
and	cnjcoo	and
said	vblex.past	say
unto	pr	unto
them	prn.obj.p3.mf.pl	them
in	adv	in
parables	n.pl	parable
,	cm	,
How	preadv	how
can	vbmod.pres	can
Satan	unknown	Satan
cast	vblex.past	cast
out	adv	out
Satan	unknown	Satan
?	sent	?
</s>
</v>
<v at="3:24">
<s>
And	cnjcoo	and
if	cnjsub	if
a	det.ind.sg	a
kingdom	n.sg	kingdom
be	vbser.inf	be
divided	vblex.pp	divide
against	pr	against
itself	prn.ref.p3.nt.sg	itself
,	cm	,
that	det.dem.sg	that
kingdom	n.sg	kingdom
cannot	vbmod.pres	can
stand	vblex.inf	stand
.	sent	.
</s>
</v>
<v at="3:25">
<s>
And	cnjcoo	and
if	cnjsub	if
a	det.ind.sg	a
house	n.sg	house
be	vbser.inf	be
divided	vblex.pp	divide
against	pr	against
itself	prn.ref.p3.nt.sg	itself
,	cm	,
that	det.dem.sg	that
house	n.sg	house
cannot	vbmod.pres	can
stand	vblex.inf	stand
.	sent	.
</s>
</v>
<v at="3:26">
<s>
And	cnjcoo	and
if	cnjsub	if
Satan	unknown	Satan
rise	n.sg	rise
up	adv	up
against	pr	against
himself	prn.ref.p3.m.sg	himself
,	cm	,
and	cnjcoo	and
be	vbser.inf	be
divided	vblex.pp	divide
,	cm	,
he	prn.subj.p3.m.sg	he
cannot	vbmod.pres	can
stand	vblex.inf	stand
,	cm	,
but	cnjcoo	but
hath	vbhaver.pres.p3.sg	have
an	det.ind.sg	a
end	n.sg	end
.	sent	.
</s>
</v>
<v at="3:27">
<s>
No	det.ind.sp	no
man	n.sg	man
can	vbmod.pres	can
enter	vblex.inf	enter
into	pr	into
a	det.ind.sg	a
strong	adj.sint	strong
man	n.sg	man
's	gen	's
house	n.sg	house
,	cm	,
and	cnjcoo	and
spoil	vblex.inf	spoil
his	adj.pos.pred	his
goods	n.pl	good
,	cm	,
except	pr	except
he	prn.subj.p3.m.sg	he
will	vbmod.pres	will
first	adj.ord	first
bind	vblex.inf	bind
the	det.def.sp	the
strong	adj.sint	strong
man	n.sg	man
;	sent	;
</s>
<s>
and	cnjcoo	and
then	cnjadv	then
he	prn.subj.p3.m.sg	he
will	vbmod.pres	will
spoil	vblex.inf	spoil
his	det.pos.sp	his
house	n.sg	house
.	sent	.
</s>
</v>
<v at="3:28">
<s>
Verily	adv	verily
I	prn.subj.p1.mf.sg.min	prpers
say	vblex.pres	say
unto	pr	unto
you	prn.obj.p2.mf.sp	you
,	cm	,
All	predet.sp	all
sins	vblex.pres.p3.sg	sin
shall	vbmod.pres	shall
be	vbser.inf	be
forgiven	vblex.pp	forgive
unto	pr	unto
the	det.def.sp	the
sons	n.pl	son
of	pr	of
men	n.pl	man
,	cm	,
and	cnjcoo	and
blasphemies	n.pl	blasphemy
wherewith	unknown	wherewith
soever	unknown	soever
they	prn.subj.p3.mf.pl	they
shall	vbmod.pres	shall
blaspheme	unknown	blaspheme
:	sent	:
</s>
</v>
<v at="3:29">
<s>
But	cnjcoo	but
he	prn.subj.p3.m.sg	he
that	cnjsub	that
shall	vbmod.pres	shall
blaspheme	unknown	blaspheme
against	pr	against
the	det.def.sp	the
Holy	adj.sint	holy
Ghost	n.sg	ghost
hath	vbhaver.pres.p3.sg	have
never	adv	never
forgiveness	n.sg	forgiveness
,	cm	,
but	cnjcoo	but
is	vbser.pres.p3.sg	be
in danger	adv	in danger
of	pr	of
eternal	adj	eternal
damnation	unknown	damnation
:	sent	:
</s>
</v>
<v at="3:30">
<s>
Because	cnjadv	because
they	prn.subj.p3.mf.pl	they
said	vblex.past	say
,	cm	,
He	prn.subj.p3.m.sg	prpers
hath	vbhaver.pres.p3.sg	have
an	det.ind.sg	a
unclean	unknown	unclean
spirit	n.sg	spirit
.	sent	.
</s>
</v>
<v at="3:31">
<s>
There	adv	there
came	vblex.past	come
then	cnjadv	then
his	adj.pos.pred	his
brethren	n.pl	brother
and	cnjcoo	and
his	det.pos.sp	his
mother	n.sg	mother
,	cm	,
and	cnjcoo	and
,	cm	,
standing	vblex.subs	stand
without	pr	without
,	cm	,
sent	vblex.past	send
unto	pr	unto
him	prn.obj.p3.m.sg	him
,	cm	,
calling	vblex.ger	call
him	prn.obj.p3.m.sg	him
.	sent	.
</s>
</v>
<v at="3:32">
<s>
And	cnjcoo	and
the	det.def.sp	the
multitude	n.sg	multitude
sat	vblex.past	sit
about	pr	about
him	prn.obj.p3.m.sg	him
,	cm	,
and	cnjcoo	and
they	prn.subj.p3.mf.pl	they
said	vblex.past	say
unto	pr	unto
him	prn.obj.p3.m.sg	him
,	cm	,
Behold	vblex.imp	behold
,	cm	,
thy	det.pos.sp	thy
mother	n.sg	mother
and	cnjcoo	and
thy	det.pos.sp	thy
brethren	n.pl	brother
without	pr	without
seek	vblex.inf	seek
for	pr	for
thee	prn.obj.p2.mf.sg	thou
.	sent	.
</s>
</v>
<v at="3:33">
<s>
And	cnjcoo	and
he	prn.subj.p3.m.sg	he
answered	vblex.past	answer
them	prn.obj.p3.mf.pl	them
,	cm	,
saying	vblex.pprs	say
,	cm	,
Who	prn.rel.an.mf.sp	who
is	vbser.pres.p3.sg	be
my	det.pos.sp	my
mother	n.sg	mother
,	cm	,
or	cnjcoo	or
my	det.pos.sp	my
brethren	n.pl	brother
?	sent	?
</s>
</v>
<v at="3:34">
<s>
And	cnjcoo	and
he	prn.subj.p3.m.sg	he
looked	vblex.past	look
round	pr	round
about	adv	about
on	pr	on
them	prn.obj.p3.mf.pl	them
which	prn.itg.mf.sp	which
sat	vblex.past	sit
about	pr	about
him	prn.obj.p3.m.sg	him
,	cm	,
and	cnjcoo	and
said	vblex.past	say
,	cm	,
Behold	vblex.imp	behold
my	det.pos.sp	my
mother	n.sg	mother
and	cnjcoo	and
my	det.pos.sp	my
brethren	n.pl	brother
!	sent	!
</s>
</v>
<v at="3:35">
<s>
For	pr	for
whosoever	prn.rel	whosoever
shall	vbmod.pres	shall
do	vblex.inf	do
the	det.def.sp	the
will	n.sg	will
of	pr	of
God	n.sg	god
,	cm	,
the same	adv	the same
is	vbser.pres.p3.sg	be
my	det.pos.sp	my
brother	n.sg	brother
,	cm	,
and	cnjcoo	and
my	det.pos.sp	my
sister	n.sg	sister
,	cm	,
and	cnjcoo	and
mother	n.sg	mother
.	sent	.
</s>
</v>
<v at="4:1">
<s>
And	cnjcoo	and
he	prn.subj.p3.m.sg	he
began	vblex.past	begin
again	adv	again
to	pr	to
teach	vblex.inf	teach
by	pr	by
the	det.def.sp	the
sea	n.sg	sea
side	n.sg	side
:	sent	:
</s>
<s>
and	cnjcoo	and
there	adv	there
was	vbser.past.p1.sg	be
gathered	vblex.pp	gather
unto	pr	unto
him	prn.obj.p3.m.sg	him
a	det.ind.sg	a
great	adj.sint	great
multitude	n.sg	multitude
,	cm	,
so that	cnjadv	so that
he	prn.subj.p3.m.sg	he
entered	vblex.past	enter
into	pr	into
a	det.ind.sg	a
ship	n.sg	ship
,	cm	,
and	cnjcoo	and
sat	vblex.past	sit
in	pr	in
the	det.def.sp	the
sea	n.sg	sea
;	sent	;
</s>
<s>
and	cnjcoo	and
the	det.def.sp	the
whole	adj	whole
multitude	n.sg	multitude
was	vbser.past.p1.sg	be
by	pr	by
the	det.def.sp	the
sea	n.sg	sea
on	pr	on
the	det.def.sp	the
land	n.sg	land
.	sent	.
</s>
</v>
<v at="4:2">
<s>
And	cnjcoo	and
he	prn.subj.p3.m.sg	he
taught	vblex.past	teach
them	prn.obj.p3.mf.pl	them
many	det.qnt.pl	many
things	n.pl	thing
by	pr	by
parables	n.pl	parable
,	cm	,
and	cnjcoo	and
said	vblex.past	say
unto	pr	unto
them	prn.obj.p3.mf.pl	them
in	pr	in
his	det.pos.sp	his
doctrine	n.sg	doctrine
,	cm	,
</v>
<v at="4:3">
Hearken	unknown	Hearken
;	sent	;
</s>
<s>
Behold	vblex.imp	behold
,	cm	,
there	adv	there
went out	vblex.past	go out
a	det.ind.sg	a
sower	n.sg	sower
to	pr	to
sow	n.sg	sow
:	sent	:
</s>
</v>
<v at="4:4">
<s>
And	cnjcoo	and
it	prn.subj.p3.nt.sg	it
came	vblex.past	come
to	pr	to
pass	vblex.inf	pass
,	cm	,
as	cnjadv	as
he	prn.subj.p3.m.sg	he
sowed	unknown	sowed
,	cm	,
some	prn.ind.mf.pl	some
fell	vblex.past	fall
by the way	adv	by the way
side	n.sg	side
,	cm	,
and	cnjcoo	and
the	det.def.sp	the
fowls	n.pl	fowl
of	pr	of
the	det.def.sp	the
air	n.sg	air
came	vblex.past	come
and	cnjcoo	and
devoured	vblex.past	devour
it	prn.obj.p3.nt.sg	it
up	adv	up
.	sent	.
</s>
</v>
<v at="4:5">
<s>
And	cnjcoo	and
some	prn.ind.mf.pl	some
fell	vblex.past	fall
on	adv	on
stony	unknown	stony
ground	n.sg	ground
,	cm	,
where	adv	where
it	prn.subj.p3.nt.sg	it
had	vblex.past	have
not	adv	not
much	det.qnt.sg	much
earth	n.sg	earth
;	sent	;
</s>
<s>
and	cnjcoo	and
immediately	adv	immediately
it	prn.obj.p3.nt.sg	it
sprang	vblex.past	spring
up	adv	up
,	cm	,
because	cnjadv	because
it	prn.subj.p3.nt.sg	it
had	vblex.past	have
no	det.ind.sp	no
depth	n.sg	depth
of	pr	of
earth	n.sg	earth
:	sent	:
</s>
</v>
<v at="4:6">
<s>
But	cnjcoo	but
when	cnjadv	when
the	det.def.sp	the
sun	n.sg	sun
was	vbser.past.p3.sg	be
up	adv	up
,	cm	,
it	prn.subj.p3.nt.sg	it
was	vbser.past.p3.sg	be
scorched	unknown	scorched
;	sent	;
</s>
<s>
and	cnjcoo	and
because	cnjadv	because
it	prn.obj.p3.nt.sg	it
had	vblex.past	have
no	det.ind.sp	no
root	n.sg	root
,	cm	,
it	prn.subj.p3.nt.sg	it
withered	adj	withered
away	adv	away
.	sent	.
</s>
</v>
<v at="4:7">
<s>
And	cnjcoo	and
some	prn.ind.mf.pl	some
fell	vblex.past	fall
among	pr	among
thorns	unknown	thorns
,	cm	,
and	cnjcoo	and
the	det.def.sp	the
thorns	unknown	thorns
grew	vblex.past	grow
up	adv	up
,	cm	,
and	cnjcoo	and
choked	vblex.past	choke
it	prn.obj.p3.nt.sg	it
,	cm	,
and	cnjcoo	and
it	prn.subj.p3.nt.sg	it
yielded	vblex.past	yield
no	det.ind.sp	no
fruit	n.sg	fruit
.	sent	.
</s>
</v>
<v at="4:8">
<s>
And	cnjcoo	and
other	det.ind.sp	other
fell	vblex.past	fall
on	pr	on
good	adj.sint	good
ground	n.sg	ground
,	cm	,
and	cnjcoo	and
did	vbdo.past	do
yield	vblex.inf	yield
fruit	n.sg	fruit
that	cnjsub	that
sprang	vblex.past	spring
up	adv	up
and	cnjcoo	and
increased	vblex.past	increase
;	sent	;
</s>
<s>
and	cnjcoo	and
brought	vblex.past	bring
forth	adv	forth
,	cm	,
some	prn.ind.mf.pl	some
thirty	num.pl	thirty
,	cm	,
and	cnjcoo	and
some	prn.ind.mf.pl	some
sixty	num.pl	sixty
,	cm	,
and	cnjcoo	and
some	prn.ind.mf.pl	some
an	det.ind.sg	a
hundred	n.sg	hundred
.	sent	.
</s>
</v>
<v at="4:9">
<s>
And	cnjcoo	and
he	prn.subj.p3.m.sg	he
said	vblex.past	say
unto	pr	unto
them	prn.obj.p3.mf.pl	them
,	cm	,
He	prn.subj.p3.m.sg	prpers
that	cnjsub	that
hath	vbhaver.pres.p3.sg	have
ears	n.pl	ear
to	pr	to
hear	vblex.inf	hear
,	cm	,
let	vblex.imp	let
him	prn.obj.p3.m.sg	him
hear	vblex.pres	hear
.	sent	.
</s>
</v>
<v at="4:10">
<s>
And	cnjcoo	and
when	cnjadv	when
he	prn.subj.p3.m.sg	he
was	vbser.past.p3.sg	be
alone	adj	alone
,	cm	,
they	prn.subj.p3.mf.pl	they
that	cnjsub	that
were	vbser.past	be
about	pr	about
him	prn.obj.p3.m.sg	him
with	pr	with
the	det.def.sp	the
twelve	num.pl	twelve
asked	vblex.past	ask
of	pr	of
him	prn.obj.p3.m.sg	him
the	det.def.sp	the
parable	n.sg	parable
.	sent	.
</s>
</v>
<v at="4:11">
<s>
And	cnjcoo	and
he	prn.subj.p3.m.sg	he
said	vblex.past	say
unto	pr	unto
them	prn.obj.p3.mf.pl	them
,	cm	,
Unto	pr	unto
you	prn.subj.p2.mf.sp	you
it	prn.subj.p3.nt.sg	it
is	vbser.pres.p3.sg	be
given	vblex.pp	give
to	pr	to
know	vblex.inf	know
the	det.def.sp	the
mystery	n.sg	mystery
of	pr	of
the	det.def.sp	the
kingdom	n.sg	kingdom
of	pr	of
God	n.sg	god
:	sent	:
</s>
<s>
but	cnjcoo	but
unto	pr	unto
them	prn.obj.p3.mf.pl	them
that	prn.rel.an.mf.sp	that
are	vbser.pres	be
without	pr	without
,	cm	,
all	prn.qnt.mf.sp	all
these	det.dem.pl	this
things	n.pl	thing
are	vbser.pres	be
done	vblex.pp	do
in	adv	in
parables	n.pl	parable
:	sent	:
</s>
</v>
<v at="4:12">
<s>
That	prn.rel.an.mf.sp	that
seeing	vblex.ger	see
they	prn.subj.p3.mf.pl	they
may	vbmod.pres	may
see	vblex.inf	see
,	cm	,
and	cnjcoo	and
not	adv	not
perceive	vblex.inf	perceive
;	sent	;
</s>
<s>
and	cnjcoo	and
hearing	n.sg	hearing
they	prn.subj.p3.mf.pl	they
may	vbmod.pres	may
hear	vblex.inf	hear
,	cm	,
and	cnjcoo	and
not	adv	not
understand	vblex.inf	understand
;	sent	;
</s>
<s>
lest	unknown	lest
at	pr	at
any	det.ind.sp	any
time	n.sg	time
they	prn.subj.p3.mf.pl	they
should	vbmod.past	shall
be	vbser.inf	be
converted	vblex.pp	convert
,	cm	,
and	cnjcoo	and
their	det.pos.sp	their
sins	n.pl	sin
should	vbmod.past	shall
be	vbser.inf	be
forgiven	vblex.pp	forgive
them	prn.obj.p3.mf.pl	them
.	sent	.
</s>
</v>
<v at="4:13">
<s>
And	cnjcoo	and
he	prn.subj.p3.m.sg	he
said	vblex.past	say
unto	pr	unto
them	prn.obj.p3.mf.pl	them
,	cm	,
Know	vblex.imp	know
ye	prn.subj.p2.mf.pl	ye
not	adv	not
this	prn.dem.mf.sg	this
parable	n.sg	parable
?	sent	?
</s>
<s>
and	cnjcoo	and
how	preadv	how
then	cnjadv	then
will	vbmod.pres	will
ye	prn.subj.p2.mf.pl	ye
know	vblex.pres	know
all	prn.qnt.mf.sp	all
parables	n.pl	parable
?	sent	?
</s>
</v>
<v at="4:14">
<s>
The	det.def.sp	the
sower	n.sg	sower
soweth	unknown	soweth
the	det.def.sp	the
word	n.sg	word
.	sent	.
</s>
</v>
<v at="4:15">
<s>
And	cnjcoo	and
these	prn.dem.mf.pl	this
are	vbser.pres	be
they	prn.subj.p3.mf.pl	they
by the way	adv	by the way
side	vblex.pres	side
,	cm	,
where	adv	where
the	det.def.sp	the
word	n.sg	word
is	vbser.pres.p3.sg	be
sown	unknown	sown
;	sent	;
</s>
<s>
but	cnjcoo	but
when	cnjadv	when
they	prn.subj.p3.mf.pl	they
have	vbhaver.inf	have
heard	vblex.pp	hear
,	cm	,
Satan	unknown	Satan
cometh	vblex.pres.p3.sg	come
immediately	adv	immediately
,	cm	,
and	cnjcoo	and
taketh	vblex.pres.p3.sg	take
away	adv	away
the	det.def.sp	the
word	n.sg	word
that	prn.rel.an.mf.sp	that
was	vbser.past.p3.sg	be
sown	unknown	sown
in	pr	in
their	det.pos.sp	their
hearts	n.pl	heart
.	sent	.
</s>
</v>
<v at="4:16">
<s>
And	cnjcoo	and
these	prn.dem.mf.pl	this
are	vbser.pres	be
they	prn.subj.p3.mf.pl	they
likewise	adv	likewise
which	prn.itg.mf.sp	which
are	vbser.pres	be
sown	unknown	sown
on	adv	on
stony	unknown	stony
ground	n.sg	ground
;	sent	;
</s>
<s>
who	prn.rel.an.mf.sp	who
,	cm	,
when	cnjadv	when
they	prn.subj.p3.mf.pl	they
have	vbhaver.inf	have
heard	vblex.pp	hear
the	det.def.sp	the
word	n.sg	word
,	cm	,
immediately	adv	immediately
receive	vblex.inf	receive
it	prn.obj.p3.nt.sg	it
with	pr	with
gladness	unknown	gladness
;	sent	;
</s>
</v>
<v at="4:17">
<s>
And	cnjcoo	and
have	vblex.pres	have
no	det.ind.sp	no
root	n.sg	root
in	pr	in
themselves	prn.ref.p3.mf.pl	themselves
,	cm	,
and	cnjcoo	and
so	cnjadv	so
endure	vblex.pres	endure
but	cnjcoo	but
for	pr	for
a	det.ind.sg	a
time	n.sg	time
:	sent	:
</s>
<s>
afterward	adv	afterward
,	cm	,
when	cnjadv	when
affliction	n.sg	affliction
or	cnjcoo	or
persecution	n.sg	persecution
ariseth	unknown	ariseth
for	pr	for
the	det.def.sp	the
word	n.sg	word
's	gen	's
sake	n.sg	sake
,	cm	,
immediately	adv	immediately
they	prn.subj.p3.mf.pl	they
are	vbser.pres	be
offended	vblex.pp	offend
.	sent	.
</s>
</v>
<v at="4:18">
<s>
And	cnjcoo	and
these	prn.dem.mf.pl	this
are	vbser.pres	be
they	prn.subj.p3.mf.pl	they
which	prn.itg.mf.sp	which
are	vbser.pres	be
sown	unknown	sown
among	pr	among
thorns	unknown	thorns
;	sent	;
</s>
<s>
such as	pr	such as
hear	vblex.pres	hear
the	det.def.sp	the
word	n.sg	word
,	cm	,
</v>
<v at="4:19">
And	cnjcoo	and
the	det.def.sp	the
cares	n.pl	care
of	pr	of
this	det.dem.sg	this
world	n.sg	world
,	cm	,
and	cnjcoo	and
the	det.def.sp	the
deceitfulness	n.sg	deceitfulness
of	pr	of
riches	unknown	riches
,	cm	,
and	cnjcoo	and
the	det.def.sp	the
lusts	n.pl	lust
of	pr	of
other	det.ind.sp	other
things	n.pl	thing
entering	vblex.pprs	enter
in	adv	in
,	cm	,
choke	vblex.imp	choke
the	det.def.sp	the
word	n.sg	word
,	cm	,
and	cnjcoo	and
it	prn.subj.p3.nt.sg	it
becometh	unknown	becometh
unfruitful	unknown	unfruitful
.	sent	.
</s>
</v>
<v at="4:20">
<s>
And	cnjcoo	and
these	prn.dem.mf.pl	this
are	vbser.pres	be
they	prn.subj.p3.mf.pl	they
which	prn.itg.mf.sp	which
are	vbser.pres	be
sown	unknown	sown
on	pr	on
good	adj.sint	good
ground	n.sg	ground
;	sent	;
</s>
<s>
such as	pr	such as
hear	vblex.pres	hear
the	det.def.sp	the
word	n.sg	word
,	cm	,
and	cnjcoo	and
receive	vblex.inf	receive
it	prn.obj.p3.nt.sg	it
,	cm	,
and	cnjcoo	and
bring	vblex.inf	bring
forth	adv	forth
fruit	n.sg	fruit
,	cm	,
some	prn.ind.mf.pl	some
thirtyfold	unknown	thirtyfold
,	cm	,
some	prn.ind.mf.pl	some
sixty	num.pl	sixty
,	cm	,
and	cnjcoo	and
some	prn.ind.mf.pl	some
an	det.ind.sg	a
hundred	n.sg	hundred
.	sent	.
</s>
</v>
<v at="4:21">
<s>
And	cnjcoo	and
he	prn.subj.p3.m.sg	he
said	vblex.past	say
unto	pr	unto
them	prn.obj.p3.mf.pl	them
,	cm	,
Is	vbser.pres.p3.sg	be
a	det.ind.sg	a
candle	n.sg	candle
brought	vblex.past	bring
to	pr	to
be	vbser.inf	be
put	vblex.pp	put
under	adv	under
a	det.ind.sg	a
bushel	unknown	bushel
,	cm	,
or	cnjcoo	or
under	pr	under
a	det.ind.sg	a
bed	n.sg	bed
?	sent	?
</s>
<s>
and	cnjcoo	and
not	adv	not
to	pr	to
be	vbser.inf	be
set	vblex.pp	set
on	adv	on
a	det.ind.sg	a
candlestick	unknown	candlestick
?	sent	?
</s>
</v>
<v at="4:22">
<s>
For	pr	for
there	adv	there
is	vbser.pres.p3.sg	be
nothing	prn.ind.mf.sg	nothing
hid	vblex.pp	hide
,	cm	,
which	prn.itg.mf.sp	which
shall	vbmod.pres	shall
not	adv	not
be	vbser.inf	be
manifested	vblex.pp	manifest
;	sent	;
</s>
<s>
neither	cnjcoo	neither
was	vbser.past.p1.sg	be
any	det.ind.sp	any
thing	n.sg	thing
kept	vblex.past	keep
secret	adj	secret
,	cm	,
but	cnjcoo	but
that	cnjsub	that
it	prn.subj.p3.nt.sg	it
should	vbmod.past	shall
come	vblex.inf	come
abroad	adv	abroad
.	sent	.
</s>
</v>
<v at="4:23">
<s>
If	cnjsub	if
any	det.ind.sp	any
man	n.sg	man
have	vblex.pres	have
ears	n.pl	ear
to	pr	to
hear	vblex.inf	hear
,	cm	,
let	vblex.imp	let
him	prn.obj.p3.m.sg	him
hear	vblex.pres	hear
.	sent	.
</s>
</v>
<v at="4:24">
<s>
And	cnjcoo	and
he	prn.subj.p3.m.sg	he
said	vblex.past	say
unto	pr	unto
them	prn.obj.p3.mf.pl	them
,	cm	,
Take	vblex.imp	take
heed	unknown	heed
what	prn.rel.nn.mf.sg	what
ye	prn.subj.p2.mf.pl	ye
hear	vblex.pres	hear
:	sent	:
</s>
<s>
with	pr	with
what	det.itg.sp	what
measure	n.sg	measure
ye	prn.subj.p2.mf.pl	ye
mete	unknown	mete
,	cm	,
it	prn.subj.p3.nt.sg	it
shall	vbmod.pres	shall
be	vbser.inf	be
measured	vblex.pp	measure
to	pr	to
you	prn.obj.p2.mf.sp	you
:	sent	:
</s>
<s>
and	cnjcoo	and
unto	pr	unto
you	prn.obj.p2.mf.sp	you
that	prn.dem.mf.sg	that
hear	vblex.pres	hear
shall	vbmod.pres	shall
more	adv	more
be	vbser.inf	be
given	vblex.pp	give
.	sent	.
</s>
</v>
<v at="4:25">
<s>
For	pr	for
he	prn.subj.p3.m.sg	he
that	cnjsub	that
hath	vbhaver.pres.p3.sg	have
,	cm	,
to	pr	to
him	prn.obj.p3.m.sg	him
shall	vbmod.pres	shall
be	vbser.inf	be
given	vblex.pp	give
:	sent	:
</s>
<s>
and	cnjcoo	and
he	prn.subj.p3.m.sg	he
that	cnjsub	that
hath	vbhaver.pres.p3.sg	have
not	adv	not
,	cm	,
from	pr	from
him	prn.obj.p3.m.sg	him
shall	vbmod.pres	shall
be	vbser.inf	be
taken	vblex.pp	take
even	adv	even
that	cnjsub	that
which	prn.itg.mf.sp	which
he	prn.subj.p3.m.sg	he
hath	vbhaver.pres.p3.sg	have
.	sent	.
</s>
</v>
<v at="4:26">
<s>
And	cnjcoo	and
he	prn.subj.p3.m.sg	he
said	vblex.past	say
,	cm	,
So	cnjadv	so
is	vbser.pres.p3.sg	be
the	det.def.sp	the
kingdom	n.sg	kingdom
of	pr	of
God	n.sg	god
,	cm	,
as	cnjadv	as
if	cnjsub	if
a	det.ind.sg	a
man	n.sg	man
should	vbmod.past	shall
cast	vblex.inf	cast
seed	n.sg	seed
into	pr	into
the	det.def.sp	the
ground	n.sg	ground
;	sent	;
</s>
</v>
<v at="4:27">
<s>
And	cnjcoo	and
should	vbmod.past	shall
sleep	vblex.inf	sleep
,	cm	,
and	cnjcoo	and
rise	n.sg	rise
night and day	adv	night and day
,	cm	,
and	cnjcoo	and
the	det.def.sp	the
seed	n.sg	seed
should	vbmod.past	shall
spring	vblex.inf	spring
and	cnjcoo	and
grow	vblex.inf	grow
up	adv	up
,	cm	,
he	prn.subj.p3.m.sg	he
knoweth	unknown	knoweth
not	adv	not
how	adv	how
.	sent	.
</s>
</v>
<v at="4:28">
<s>
For	pr	for
the	det.def.sp	the
earth	n.sg	earth
bringeth	unknown	bringeth
forth	adv	forth
fruit	n.sg	fruit
of	pr	of
herself	prn.ref.p3.f.sg	herself
;	sent	;
</s>
<s>
first	adj.ord	first
the	det.def.sp	the
blade	n.sg	blade
,	cm	,
then	cnjadv	then
the	det.def.sp	the
ear	n.sg	ear
,	cm	,
after that	adv	after that
the	det.def.sp	the
full	adj.sint	full
corn	n.sg	corn
in	pr	in
the	det.def.sp	the
ear	n.sg	ear
.	sent	.
</s>
</v>
<v at="4:29">
<s>
But	cnjcoo	but
when	cnjadv	when
the	det.def.sp	the
fruit	n.sg	fruit
is	vbser.pres.p3.sg	be
brought	vblex.pp	bring
forth	adv	forth
,	cm	,
immediately	adv	immediately
he	prn.subj.p3.m.sg	he
putteth	unknown	putteth
in	pr	in
the	det.def.sp	the
sickle	n.sg	sickle
,	cm	,
because	cnjadv	because
the	det.def.sp	the
harvest	n.sg	harvest
is	vbser.pres.p3.sg	be
come	vblex.pp	come
.	sent	.
</s>
</v>
<v at="4:30">
<s>
And	cnjcoo	and
he	prn.subj.p3.m.sg	he
said	vblex.past	say
,	cm	,
Whereunto	unknown	Whereunto
shall	vbmod.pres	shall
we	prn.subj.p1.mf.pl	we
liken	vblex.inf	liken
the	det.def.sp	the
kingdom	n.sg	kingdom
of	pr	of
God	n.sg	god
?	sent	?
</s>
<s>
or	cnjcoo	or
with	pr	with
what	det.itg.sp	what
comparison	n.sg	comparison
shall	vbmod.pres	shall
we	prn.subj.p1.mf.pl	we
compare	vblex.inf	compare
it	prn.obj.p3.nt.sg	it
?	sent	?
</s>
</v>
<v at="4:31">
<s>
It	prn.subj.p3.nt.sg	prpers
is	vbser.pres.p3.sg	be
like	pr	like
a	det.ind.sg	a
grain	n.sg	grain
of	pr	of
mustard	n.sg	mustard
seed	n.sg	seed
,	cm	,
which	prn.itg.mf.sp	which
,	cm	,
when	cnjadv	when
it	prn.subj.p3.nt.sg	it
is	vbser.pres.p3.sg	be
sown	unknown	sown
in	pr	in
the	det.def.sp	the
earth	n.sg	earth
,	cm	,
is	vbser.pres.p3.sg	be
less	adv	less
than	cnjsub	than
all	predet.sp	all
the	det.def.sp	the
seeds	n.pl	seed
that	prn.rel.an.mf.sp	that
be	vbser.inf	be
in	pr	in
the	det.def.sp	the
earth	n.sg	earth
:	sent	:
</s>
</v>
<v at="4:32">
<s>
But	cnjcoo	but
when	cnjadv	when
it	prn.subj.p3.nt.sg	it
is	vbser.pres.p3.sg	be
sown	unknown	sown
,	cm	,
it	prn.subj.p3.nt.sg	it
groweth	unknown	groweth
up	adv	up
,	cm	,
and	cnjcoo	and
becometh	unknown	becometh
greater	adj.sint.comp	great
than	cnjsub	than
all	predet.sp	all
herbs	n.pl	herb
,	cm	,
and	cnjcoo	and
shooteth	unknown	shooteth
out	pr	out
great	adj.sint	great
branches	n.pl	branch
;	sent	;
</s>
<s>
so that	cnjadv	so that
the	det.def.sp	the
fowls	n.pl	fowl
of	pr	of
the	det.def.sp	the
air	n.sg	air
may	vbmod.pres	may
lodge	vblex.inf	lodge
under	pr	under
the	det.def.sp	the
shadow	n.sg	shadow
of	pr	of
it	prn.obj.p3.nt.sg	it
.	sent	.
</s>
</v>
<v at="4:33">
<s>
And	cnjcoo	and
with	pr	with
many	prn.ind.mf.pl	many
such	det.ind.sp	such
parables	n.pl	parable
spake	vblex.past	speak
he	prn.subj.p3.m.sg	he
the	det.def.sp	the
word	n.sg	word
unto	pr	unto
them	prn.obj.p3.mf.pl	them
,	cm	,
as	cnjadv	as
they	prn.subj.p3.mf.pl	they
were	vbser.past	be
able	adj.sint	able
to	pr	to
hear	vblex.inf	hear
it	prn.obj.p3.nt.sg	it
.	sent	.
</s>
</v>
<v at="4:34">
<s>
But	cnjcoo	but
without	pr	without
a	det.ind.sg	a
parable	n.sg	parable
spake	vblex.past	speak
he	prn.subj.p3.m.sg	he
not	adv	not
unto	pr	unto
them	prn.obj.p3.mf.pl	them
:	sent	:
</s>
<s>
and	cnjcoo	and
when	cnjadv	when
they	prn.subj.p3.mf.pl	they
were	vbser.past	be
alone	adv	alone
,	cm	,
he	prn.subj.p3.m.sg	he
expounded	vblex.past	expound
all	prn.qnt.mf.sp	all
things	n.pl	thing
to	pr	to
his	adj.pos.pred	his
disciples	n.pl	disciple
.	sent	.
</s>
</v>
<v at="4:35">
<s>
And	cnjcoo	and
the same	det.def.sp	the
day	n.sg	day
,	cm	,
when	cnjadv	when
the	det.def.sp	the
even	adv	even
was	vbser.past.p1.sg	be
come	vblex.pp	come
,	cm	,
he	prn.subj.p3.m.sg	he
saith	vblex.pres.p3.sg	say
unto	pr	unto
them	prn.obj.p3.mf.pl	them
,	cm	,
Let	vblex.imp	let
us	prn.obj.p1.mf.pl	us
pass	vblex.pres	pass
over	adv	over
unto	pr	unto
the other	det.def.sp	the
side	n.sg	side
.	sent	.
</s>
</v>
<v at="4:36">
<s>
And	cnjcoo	and
when	cnjadv	when
they	prn.subj.p3.mf.pl	they
had	vbhaver.past	have
sent	vblex.pp	send
away	adv	away
the	det.def.sp	the
multitude	n.sg	multitude
,	cm	,
they	prn.subj.p3.mf.pl	they
took	vblex.past	take
him	prn.obj.p3.m.sg	him
even	adv	even
as	cnjadv	as
he	prn.subj.p3.m.sg	he
was	vbser.past.p1.sg	be
in	pr	in
the	det.def.sp	the
ship	n.sg	ship
.	sent	.
</s>
<s>
And	cnjcoo	and
there	adv	there
were	vbser.past	be
also	adv	also
with	pr	with
him	prn.obj.p3.m.sg	him
other	det.ind.sp	other
little	adj	little
ships	n.pl	ship
.	sent	.
</s>
</v>
<v at="4:37">
<s>
And	cnjcoo	and
there	adv	there
arose	vblex.past	arise
a	det.ind.sg	a
great	adj.sint	great
storm	n.sg	storm
of	pr	of
wind	n.sg	wind
,	cm	,
and	cnjcoo	and
the	det.def.sp	the
waves	n.pl	wave
beat	vblex.pres	beat
into	pr	into
the	det.def.sp	the
ship	n.sg	ship
,	cm	,
so that	cnjadv	so that
it	prn.subj.p3.nt.sg	it
was	vbser.past.p1.sg	be
now	adv	now
full	adj.sint	full
.	sent	.
</s>
</v>
<v at="4:38">
<s>
And	cnjcoo	and
he	prn.subj.p3.m.sg	he
was	vbser.past.p3.sg	be
in	adv	in
the	det.def.sp	the
hinder	vblex.pres	hinder
part	n.sg	part
of	pr	of
the	det.def.sp	the
ship	n.sg	ship
,	cm	,
asleep	adj	asleep
on	pr	on
a	det.ind.sg	a
pillow	n.sg	pillow
:	sent	:
</s>
<s>
and	cnjcoo	and
they	prn.subj.p3.mf.pl	they
awake	adj	awake
him	prn.obj.p3.m.sg	him
,	cm	,
and	cnjcoo	and
say	vblex.pres	say
unto	pr	unto
him	prn.obj.p3.m.sg	him
,	cm	,
Master	n.sg	master
,	cm	,
carest	unknown	carest
thou	prn.subj.p2.mf.sg	thou
not	adv	not
that	cnjsub	that
we	prn.subj.p1.mf.pl	we
perish	vblex.pres	perish
?	sent	?
</s>
</v>
<v at="4:39">
<s>
And	cnjcoo	and
he	prn.subj.p3.m.sg	he
arose	vblex.past	arise
,	cm	,
and	cnjcoo	and
rebuked	unknown	rebuked
the	det.def.sp	the
wind	n.sg	wind
,	cm	,
and	cnjcoo	and
said	vblex.past	say
unto	pr	unto
the	det.def.sp	the
sea	n.sg	sea
,	cm	,
Peace	n.sg	peace
,	cm	,
be	vbser.inf	be
still	adv	still
.	sent	.
</s>
<s>
And	cnjcoo	and
the	det.def.sp	the
wind	n.sg	wind
ceased	vblex.pp	cease
,	cm	,
and	cnjcoo	and
there	adv	there
was	vbser.past.p1.sg	be
a	det.ind.sg	a
great	adj.sint	great
calm	n.sg	calm
.	sent	.
</s>
</v>
<v at="4:40">
<s>
And	cnjcoo	and
he	prn.subj.p3.m.sg	he
said	vblex.past	say
unto	pr	unto
them	prn.obj.p3.mf.pl	them
,	cm	,
Why	adv.itg	why
are	vbser.pres	be
ye	prn.subj.p2.mf.pl	ye
so	preadv	so
fearful	adj	fearful
?	sent	?
</s>
<s>
how	adv.itg	how
is	vbser.pres.p3.sg	be
it	prn.subj.p3.nt.sg	it
that	cnjsub	that
ye	prn.subj.p2.mf.pl	ye
have	vblex.pres	have
no	det.ind.sp	no
faith	n.sg	faith
?	sent	?
</s>
</v>
<v at="4:41">
<s>
And	cnjcoo	and
they	prn.subj.p3.mf.pl	they
feared	vblex.past	fear
exceedingly	adv	exceedingly
,	cm	,
and	cnjcoo	and
said	vblex.past	say
one	prn.dem.mf.sg	one
to	pr	to
another	prn.ind.mf.sg	another
,	cm	,
What	det.itg.sp	what
manner	n.sg	manner
of	pr	of
man	n.sg	man
is	vbser.pres.p3.sg	be
this	prn.dem.mf.sg	this
,	cm	,
that	cnjsub	that
even	adv	even
the	det.def.sp	the
wind	n.sg	wind
and	cnjcoo	and
the	det.def.sp	the
sea	n.sg	sea
obey	vblex.pres	obey
him	prn.obj.p3.m.sg	him
?	sent	?
</s>
</v>
<v at="5:1">
<s>
And	cnjcoo	and
they	prn.subj.p3.mf.pl	they
came	vblex.past	come
over	adv	over
unto	pr	unto
the other	det.def.sp	the
side	n.sg	side
of	pr	of
the	det.def.sp	the
sea	n.sg	sea
,	cm	,
into	pr	into
the	det.def.sp	the
country	n.sg	country
of	pr	of
the	det.def.sp	the
Gadarenes	unknown	Gadarenes
.	sent	.
</s>
</v>
<v at="5:2">
<s>
And	cnjcoo	and
when	cnjadv	when
he	prn.subj.p3.m.sg	he
was	vbser.past.p1.sg	be
come out	vblex.pp	come out
of	pr	of
the	det.def.sp	the
ship	n.sg	ship
,	cm	,
immediately	adv	immediately
there	adv	there
met	vblex.past	meet
him	prn.obj.p3.m.sg	him
out of	pr	out of
the	det.def.sp	the
tombs	n.pl	tomb
a	det.ind.sg	a
man	n.sg	man
with	pr	with
an	det.ind.sg	a
unclean	unknown	unclean
spirit	n.sg	spirit
,	cm	,
</v>
<v at="5:3">
Who	prn.rel.an.mf.sp	who
had	vblex.past	have
his	det.pos.sp	his
dwelling	vblex.subs	dwell
among	pr	among
the	det.def.sp	the
tombs	n.pl	tomb
;	sent	;
</s>
<s>
and	cnjcoo	and
no	det.ind.sp	no
man	n.sg	man
could	vbmod.past	can
bind	vblex.inf	bind
him	prn.obj.p3.m.sg	him
,	cm	,
no	adv	no
,	cm	,
not	adv	not
with	pr	with
chains	n.pl	chain
:	sent	:
</s>
</v>
<v at="5:4">
<s>
Because	cnjadv	because
that	cnjsub	that
he	prn.subj.p3.m.sg	he
had	vbhaver.past	have
been	vbser.pp	be
often	adv	often
bound	vblex.pp	bind
with	pr	with
fetters	n.pl	fetter
and	cnjcoo	and
chains	n.pl	chain
,	cm	,
and	cnjcoo	and
the	det.def.sp	the
chains	n.pl	chain
had	vbhaver.past	have
been	vbser.pp	be
plucked	vblex.pp	pluck
asunder	unknown	asunder
by	pr	by
him	prn.obj.p3.m.sg	him
,	cm	,
and	cnjcoo	and
the	det.def.sp	the
fetters	n.pl	fetter
broken	vblex.pp	break
in pieces	adv	in pieces
:	sent	:
</s>
<s>
neither	cnjcoo	neither
could	vbmod.past	can
any	det.ind.sp	any
man	n.sg	man
tame	adj.sint	tame
him	prn.obj.p3.m.sg	him
.	sent	.
</s>
</v>
<v at="5:5">
<s>
And	cnjcoo	and
always	adv	always
,	cm	,
night and day	adv	night and day
,	cm	,
he	prn.subj.p3.m.sg	he
was	vbser.past.p1.sg	be
in	pr	in
the	det.def.sp	the
mountains	n.pl	mountain
,	cm	,
and	cnjcoo	and
in	pr	in
the	det.def.sp	the
tombs	n.pl	tomb
,	cm	,
crying	vblex.ger	cry
,	cm	,
and	cnjcoo	and
cutting	vblex.ger	cut
himself	prn.ref.p3.m.sg	himself
with	pr	with
stones	n.pl	stone
.	sent	.
</s>
</v>
<v at="5:6">
<s>
But	cnjcoo	but
when	cnjadv	when
he	prn.subj.p3.m.sg	he
saw	vblex.past	see
Jesus	np.ant.m.sg	Jesus
afar	adv	afar
off	adv	off
,	cm	,
he	prn.subj.p3.m.sg	he
ran	vblex.past	run
and	cnjcoo	and
worshipped	vblex.past	worship
him	prn.obj.p3.m.sg	him
,	cm	,
</v>
<v at="5:7">
And	cnjcoo	and
cried	vblex.pp	cry
with	pr	with
a	det.ind.sg	a
loud	adj.sint	loud
voice	n.sg	voice
,	cm	,
and	cnjcoo	and
said	vblex.past	say
,	cm	,
What	prn.rel.nn.mf.sg	what
have	vblex.pres	have
I	prn.subj.p1.mf.sg.min	prpers
to	pr	to
do	vblex.inf	do
with	pr	with
thee	prn.obj.p2.mf.sg	thou
,	cm	,
Jesus	np.ant.m.sg	Jesus
,	cm	,
thou	prn.subj.p2.mf.sg	thou
Son	n.sg	son
of	pr	of
the	det.def.sp	the
most	prn.ind.mf.pl	most
high	adj.sint	high
God	n.sg	god
?	sent	?
</s>
<s>
I	prn.subj.p1.mf.sg	prpers
adjure	unknown	adjure
thee	prn.obj.p2.mf.sg	thou
by	pr	by
God	n.sg	god
,	cm	,
that	cnjsub	that
thou	prn.subj.p2.mf.sg	thou
torment	n.sg	torment
me	prn.obj.p1.mf.sg	me
not	adv	not
.	sent	.
</s>
</v>
<v at="5:8">
<s>
For	pr	for
he	prn.subj.p3.m.sg	he
said	vblex.past	say
unto	pr	unto
him	prn.obj.p3.m.sg	him
,	cm	,
Come out	vblex.imp	come out
of	pr	of
the	det.def.sp	the
man	n.sg	man
,	cm	,
thou	prn.subj.p2.mf.sg	thou
unclean	unknown	unclean
spirit	n.sg	spirit
.	sent	.
</s>
</v>
<v at="5:9">
<s>
And	cnjcoo	and
he	prn.subj.p3.m.sg	he
asked	vblex.past	ask
him	prn.obj.p3.m.sg	him
,	cm	,
What	prn.rel.nn.mf.sg	what
is	vbser.pres.p3.sg	be
thy	det.pos.sp	thy
name	n.sg	name
?	sent	?
</s>
<s>
And	cnjcoo	and
he	prn.subj.p3.m.sg	he
answered	vblex.past	answer
,	cm	,
saying	vblex.pprs	say
,	cm	,
My	det.pos.sp	my
name	n.sg	name
is	vbser.pres.p3.sg	be
Legion	n.sg	legion
:	sent	:
</s>
<s>
for	pr	for
we	prn.subj.p1.mf.pl	we
are	vbser.pres	be
many	prn.ind.mf.pl	many
.	sent	.
</s>
</v>
<v at="5:10">
<s>
And	cnjcoo	and
he	prn.subj.p3.m.sg	he
besought	vblex.past	beseech
him	prn.obj.p3.m.sg	him
much	adv	much
that	cnjsub	that
he	prn.subj.p3.m.sg	he
would	vbmod.past	will
not	adv	not
send	vblex.inf	send
them	prn.obj.p3.mf.pl	them
away	adv	away
out of	pr	out of
the	det.def.sp	the
country	n.sg	country
.	sent	.
</s>
</v>
<v at="5:11">
<s>
Now	adv	now
there	adv	there
was	vbser.past.p1.sg	be
there	adv	there
nigh	unknown	nigh
unto	pr	unto
the	det.def.sp	the
mountains	n.pl	mountain
a	det.ind.sg	a
great	adj.sint	great
herd	n.sg	herd
of	pr	of
swine	adj	swine
feeding	n.sg	feeding
.	sent	.
</s>
</v>
<v at="5:12">
<s>
And	cnjcoo	and
all	predet.sp	all
the	det.def.sp	the
devils	n.pl	devil
besought	vblex.past	beseech
him	prn.obj.p3.m.sg	him
,	cm	,
saying	vblex.ger	say
,	cm	,
Send	vblex.imp	send
us	prn.obj.p1.mf.pl	us
into	pr	into
the	det.def.sp	the
swine	adj	swine
,	cm	,
that	cnjsub	that
we	prn.subj.p1.mf.pl	we
may	vbmod.pres	may
enter	vblex.inf	enter
into	pr	into
them	prn.obj.p3.mf.pl	them
.	sent	.
</s>
</v>
<v at="5:13">
<s>
And	cnjcoo	and
forthwith	adv	forthwith
Jesus	np.ant.m.sg	Jesus
gave	vblex.past	give
them	prn.obj.p3.mf.pl	them
leave	vblex.inf	leave
.	sent	.
</s>
<s>
And	cnjcoo	and
the	det.def.sp	the
unclean	unknown	unclean
spirits	n.pl	spirit
went out	vblex.past	go out
,	cm	,
and	cnjcoo	and
entered	vblex.past	enter
into	pr	into
the	det.def.sp	the
swine	adj	swine
:	sent	:
</s>
<s>
and	cnjcoo	and
the	det.def.sp	the
herd	n.sg	herd
ran	vblex.past	run
violently	adv	violently
down	adv	down
a	det.ind.sg	a
steep	adj.sint	steep
place	n.sg	place
into	pr	into
the	det.def.sp	the
sea	n.sg	sea
,	cm	,
(	lpar	(
they	prn.subj.p3.mf.pl	they
were	vbser.past	be
about	pr	about
two thousand	num.pl	two thousand
;	sent	;
</s>
<s>
)	rpar	)
and	cnjcoo	and
were	vbser.past	be
choked	vblex.pp	choke
in	pr	in
the	det.def.sp	the
sea	n.sg	sea
.	sent	.
</s>
</v>
<v at="5:14">
<s>
And	cnjcoo	and
they	prn.subj.p3.mf.pl	they
that	prn.rel.an.mf.sp	that
fed	vblex.past	feed
the	det.def.sp	the
swine	n.sg	swine
fled	vblex.pp	flee
,	cm	,
and	cnjcoo	and
told	vblex.past	tell
it	prn.obj.p3.nt.sg	it
in	pr	in
the	det.def.sp	the
city	n.sg	city
,	cm	,
and	cnjcoo	and
in	pr	in
the	det.def.sp	the
country	n.sg	country
.	sent	.
</s>
<s>
And	cnjcoo	and
they	prn.subj.p3.mf.pl	they
went out	vblex.past	go out
to	pr	to
see	vblex.inf	see
what	prn.itg.mf.sp	what
it	prn.subj.p3.nt.sg	it
was	vbser.past.p1.sg	be
that	cnjsub	that
was	vbser.past.p3.sg	be
done	vblex.pp	do
.	sent	.
</s>
</v>
<v at="5:15">
<s>
And	cnjcoo	and
they	prn.subj.p3.mf.pl	they
come	vblex.pres	come
to	pr	to
Jesus	np.ant.m.sg	Jesus
,	cm	,
and	cnjcoo	and
see	vblex.pres	see
him	prn.obj.p3.m.sg	him
that	prn.rel.an.mf.sp	that
was	vbser.past.p3.sg	be
possessed	vblex.pp	possess
with	pr	with
the	det.def.sp	the
devil	n.sg	devil
,	cm	,
and	cnjcoo	and
had	vblex.past	have
the	det.def.sp	the
legion	n.sg	legion
,	cm	,
sitting	vblex.pprs	sit
,	cm	,
and	cnjcoo	and
clothed	unknown	clothed
,	cm	,
and	cnjcoo	and
in	pr	in
his	det.pos.sp	his
right	n.sg	right
mind	n.sg	mind
:	sent	:
</s>
<s>
and	cnjcoo	and
they	prn.subj.p3.mf.pl	they
were afraid	vblex.past.p2.sg	be afraid
.	sent	.
</s>
</v>
<v at="5:16">
<s>
And	cnjcoo	and
they	prn.subj.p3.mf.pl	they
that	det.dem.sg	that
saw	n.sg	saw
it	prn.obj.p3.nt.sg	it
told	vblex.past	tell
them	prn.obj.p3.mf.pl	them
how	adv.itg	how
it	prn.obj.p3.nt.sg	it
befell	unknown	befell
to	pr	to
him	prn.obj.p3.m.sg	him
that	cnjsub	that
was	vbser.past.p3.sg	be
possessed	vblex.pp	possess
with	pr	with
the	det.def.sp	the
devil	n.sg	devil
,	cm	,
and	cnjcoo	and
also	adv	also
concerning	pr	concerning
the	det.def.sp	the
swine	n.sg	swine
.	sent	.
</s>
</v>
<v at="5:17">
<s>
And	cnjcoo	and
they	prn.subj.p3.mf.pl	they
began	vblex.past	begin
to	pr	to
pray	vblex.inf	pray
him	prn.obj.p3.m.sg	him
to	pr	to
depart	vblex.inf	depart
out of	pr	out of
their	det.pos.sp	their
coasts	n.pl	coast
.	sent	.
</s>
</v>
<v at="5:18">
<s>
And	cnjcoo	and
when	cnjadv	when
he	prn.subj.p3.m.sg	he
was	vbser.past.p3.sg	be
come	vblex.pp	come
into	pr	into
the	det.def.sp	the
ship	n.sg	ship
,	cm	,
he	prn.subj.p3.m.sg	he
that	cnjsub	that
had	vbhaver.past	have
been	vbser.pp	be
possessed	vblex.pp	possess
with	pr	with
the	det.def.sp	the
devil	n.sg	devil
prayed	vblex.past	pray
him	prn.obj.p3.m.sg	him
that	cnjsub	that
he	prn.subj.p3.m.sg	he
might	vbmod.pres	might
be	vbser.inf	be
with	pr	with
him	prn.obj.p3.m.sg	him
.	sent	.
</s>
</v>
<v at="5:19">
<s>
Howbeit	unknown	Howbeit
Jesus	np.ant.m.sg	Jesus
suffered	vblex.past	suffer
him	prn.obj.p3.m.sg	him
not	adv	not
,	cm	,
but	cnjcoo	but
saith	vblex.pres.p3.sg	say
unto	pr	unto
him	prn.obj.p3.m.sg	him
,	cm	,
Go	vblex.imp	go
home	n.sg	home
to	pr	to
thy	det.pos.sp	thy
friends	n.pl	friend
,	cm	,
and	cnjcoo	and
tell	vblex.inf	tell
them	prn.obj.p3.mf.pl	them
how	preadv	how
great	adj.sint	great
things	n.pl	thing
the	det.def.sp	the
Lord	n.sg	lord
hath	vbhaver.pres.p3.sg	have
done	vblex.pp	do
for	pr	for
thee	prn.obj.p2.mf.sg	thou
,	cm	,
and	cnjcoo	and
hath	vbhaver.pres.p3.sg	have
had	vblex.past	have
compassion	n.sg	compassion
on	pr	on
thee	prn.obj.p2.mf.sg	thou
.	sent	.
</s>
</v>
<v at="5:20">
<s>
And	cnjcoo	and
he	prn.subj.p3.m.sg	he
departed	vblex.past	depart
,	cm	,
and	cnjcoo	and
began	vblex.past	begin
to	pr	to
publish	vblex.inf	publish
in	adv	in
Decapolis	unknown	Decapolis
how	preadv	how
great	adj.sint	great
things	n.pl	thing
Jesus	np.ant.m.sg	Jesus
had	vbhaver.past	have
done	vblex.pp	do
for	pr	for
him	prn.obj.p3.m.sg	him
:	sent	:
</s>
<s>
and	cnjcoo	and
all	prn.qnt.mf.sp	all
men	n.pl	man
did	vblex.past	do
marvel	n.sg	marvel
.	sent	.
</s>
</v>
<v at="5:21">
<s>
And	cnjcoo	and
when	cnjadv	when
Jesus	np.ant.m.sg	Jesus
was	vbser.past.p1.sg	be
passed	vblex.pp	pass
over	adv	over
again	adv	again
by	pr	by
ship	n.sg	ship
unto	pr	unto
the other	det.def.sp	the
side	n.sg	side
,	cm	,
much	det.qnt.sg	much
people	n.pl	person
gathered	vblex.past	gather
unto	pr	unto
him	prn.obj.p3.m.sg	him
:	sent	:
</s>
<s>
and	cnjcoo	and
he	prn.subj.p3.m.sg	he
was	vbser.past.p1.sg	be
nigh	unknown	nigh
unto	pr	unto
the	det.def.sp	the
sea	n.sg	sea
.	sent	.
</s>
</v>
<v at="5:22">
<s>
And	cnjcoo	and
,	cm	,
behold	vblex.imp	behold
,	cm	,
there	adv	there
cometh	vblex.pres.p3.sg	come
one	prn.dem.mf.sg	one
of	pr	of
the	det.def.sp	the
rulers	n.pl	ruler
of	pr	of
the	det.def.sp	the
synagogue	n.sg	synagogue
,	cm	,
Jairus	unknown	Jairus
by name	adv	by name
;	sent	;
</s>
<s>
and	cnjcoo	and
when	cnjadv	when
he	prn.subj.p3.m.sg	he
saw	vblex.past	see
him	prn.obj.p3.m.sg	him
,	cm	,
he	prn.subj.p3.m.sg	he
fell	vblex.past	fall
at	pr	at
his	adj.pos.pred	his
feet	n.pl	foot
,	cm	,
</v>
<v at="5:23">
And	cnjcoo	and
besought	vblex.past	beseech
him	prn.obj.p3.m.sg	him
greatly	adv	greatly
,	cm	,
saying	vblex.pprs	say
,	cm	,
My	det.pos.sp	my
little	adj	little
daughter	n.sg	daughter
lieth	unknown	lieth
at the point	adv	at the point
of	pr	of
death	n.sg	death
:	sent	:
</s>
<s>
I	prn.subj.p1.mf.sg	prpers
pray	vblex.pres	pray
thee	prn.obj.p2.mf.sg	thou
,	cm	,
come	vblex.imp	come
and	cnjcoo	and
lay	vblex.imp	lay
thy	det.pos.sp	thy
hands	n.pl	hand
on	pr	on
her	prn.obj.p3.f.sg	her
,	cm	,
that	cnjsub	that
she	prn.subj.p3.f.sg	she
may	vbmod.pres	may
be	vbser.inf	be
healed	vblex.pp	heal
;	sent	;
</s>
<s>
and	cnjcoo	and
she	prn.subj.p3.f.sg	she
shall	vbmod.pres	shall
live	vblex.inf	live
.	sent	.
</s>
</v>
<v at="5:24">
<s>
And	cnjcoo	and
Jesus	np.ant.m.sg	Jesus
went	vblex.past	go
with	pr	with
him	prn.obj.p3.m.sg	him
;	sent	;
</s>
<s>
and	cnjcoo	and
much	det.qnt.sg	much
people	n.pl	person
followed	vblex.past	follow
him	prn.obj.p3.m.sg	him
,	cm	,
and	cnjcoo	and
thronged	unknown	thronged
him	prn.obj.p3.m.sg	him
.	sent	.
</s>
</v>
<v at="5:25">
<s>
And	cnjcoo	and
a	det.ind.sg	a
certain	adj	certain
woman	n.sg	woman
,	cm	,
which	prn.itg.mf.sp	which
had	vblex.past	have
an	det.ind.sg	a
issue	n.sg	issue
of	pr	of
blood	vblex.inf	blood
twelve	num.pl	twelve
years	n.pl	year
,	cm	,
</v>
<v at="5:26">
And	cnjcoo	and
had	vbhaver.past	have
suffered	vblex.pp	suffer
many	det.qnt.pl	many
things	n.pl	thing
of	pr	of
many	det.qnt.pl	many
physicians	n.pl	physician
,	cm	,
and	cnjcoo	and
had	vbhaver.past	have
spent	vblex.pp	spend
all	prn.qnt.mf.sp	all
that	cnjsub	that
she	prn.subj.p3.f.sg	she
had	vblex.past	have
,	cm	,
and	cnjcoo	and
was	vbser.past.p3.sg	be
nothing	prn.ind.mf.sg	nothing
bettered	unknown	bettered
,	cm	,
but rather	cnjcoo	but rather
grew	vblex.past	grow
worse	adj.sint.comp	bad
,	cm	,
</v>
<v at="5:27">
When	cnjadv	when
she	prn.subj.p3.f.sg	she
had	vbhaver.past	have
heard	vblex.pp	hear
of	pr	of
Jesus	np.ant.m.sg	Jesus
,	cm	,
came in	vblex.past	come in
the	det.def.sp	the
press	n.sg	press
behind	adv	behind
,	cm	,
and	cnjcoo	and
touched	vblex.past	touch
his	det.pos.sp	his
garment	n.sg	garment
.	sent	.
</s>
</v>
<v at="5:28">
<s>
For	pr	for
she	prn.subj.p3.f.sg	she
said	vblex.past	say
,	cm	,
If	cnjsub	if
I	prn.subj.p1.mf.sg.min	prpers
may	vbmod.pres	may
touch	vblex.inf	touch
but	cnjcoo	but
his	adj.pos.pred	his
clothes	n.pl	clothes
,	cm	,
I	prn.subj.p1.mf.sg.min	prpers
shall	vbmod.pres	shall
be	vbser.inf	be
whole	n.sg	whole
.	sent	.
</s>
</v>
<v at="5:29">
<s>
And	cnjcoo	and
straightway	adv	straightway
the	det.def.sp	the
fountain	n.sg	fountain
of	pr	of
her	det.pos.sp	her
blood	n.sg	blood
was	vbser.past.p3.sg	be
dried	vblex.pp	dry
up	adv	up
;	sent	;
</s>
<s>
and	cnjcoo	and
she	prn.subj.p3.f.sg	she
felt	vblex.past	feel
in	pr	in
her	det.pos.sp	her
body	n.sg	body
that	cnjsub	that
she	prn.subj.p3.f.sg	she
was	vbser.past.p3.sg	be
healed	vblex.pp	heal
of	pr	of
that	det.dem.sg	that
plague	n.sg	plague
.	sent	.
</s>
</v>
<v at="5:30">
<s>
And	cnjcoo	and
Jesus	np.ant.m.sg	Jesus
,	cm	,
immediately	adv	immediately
knowing	vblex.subs	know
in	pr	in
himself	prn.ref.p3.m.sg	himself
that	det.dem.sg	that
virtue	n.sg	virtue
had	vbhaver.past	have
gone out	vblex.pp	go out
of	pr	of
him	prn.obj.p3.m.sg	him
,	cm	,
turned	vblex.past	turn
him	prn.obj.p3.m.sg	him
about	adv	about
in	pr	in
the	det.def.sp	the
press	n.sg	press
,	cm	,
and	cnjcoo	and
said	vblex.past	say
,	cm	,
Who	prn.rel.an.mf.sp	who
touched	vblex.past	touch
my	det.pos.sp	my
clothes	n.pl	clothes
?	sent	?
</s>
</v>
<v at="5:31">
<s>
And	cnjcoo	and
his	adj.pos.pred	his
disciples	n.pl	disciple
said	vblex.past	say
unto	pr	unto
him	prn.obj.p3.m.sg	him
,	cm	,
Thou	prn.subj.p2.mf.sg	thou
seest	unknown	seest
the	det.def.sp	the
multitude	n.sg	multitude
thronging	unknown	thronging
thee	prn.obj.p2.mf.sg	thou
,	cm	,
and	cnjcoo	and
sayest	unknown	sayest
thou	prn.subj.p2.mf.sg	thou
,	cm	,
Who	prn.rel.an.mf.sp	who
touched	vblex.past	touch
me	prn.obj.p1.mf.sg	me
?	sent	?
</s>
</v>
<v at="5:32">
<s>
And	cnjcoo	and
he	prn.subj.p3.m.sg	he
looked	vblex.past	look
round	pr	round
about	adv	about
to	pr	to
see	vblex.inf	see
her	prn.obj.p3.f.sg	her
that	cnjsub	that
had	vbhaver.past	have
done	vblex.pp	do
this	det.dem.sg	this
thing	n.sg	thing
.	sent	.
</s>
</v>
<v at="5:33">
<s>
But	cnjcoo	but
the	det.def.sp	the
woman	n.sg	woman
fearing	vblex.subs	fear
and	cnjcoo	and
trembling	vblex.pprs	tremble
,	cm	,
knowing	vblex.pprs	know
what	prn.rel.nn.mf.sg	what
was	vbser.past.p3.sg	be
done	vblex.pp	do
in	pr	in
her	prn.obj.p3.f.sg	her
,	cm	,
came	vblex.past	come
and	cnjcoo	and
fell down	vblex.past	fall down
before	pr	before
him	prn.obj.p3.m.sg	him
,	cm	,
and	cnjcoo	and
told	vblex.past	tell
him	prn.obj.p3.m.sg	him
all	predet.sp	all
the	det.def.sp	the
truth	n.sg	truth
.	sent	.
</s>
</v>
<v at="5:34">
<s>
And	cnjcoo	and
he	prn.subj.p3.m.sg	he
said	vblex.past	say
unto	pr	unto
her	prn.obj.p3.f.sg	her
,	cm	,
Daughter	n.sg	daughter
,	cm	,
thy	det.pos.sp	thy
faith	n.sg	faith
hath	vbhaver.pres.p3.sg	have
made	vblex.past	make
thee	prn.obj.p2.mf.sg	thou
whole	adj	whole
;	sent	;
</s>
<s>
go in	vblex.imp	go in
peace	n.sg	peace
,	cm	,
and	cnjcoo	and
be	vbser.inf	be
whole	n.sg	whole
of	pr	of
thy	det.pos.sp	thy
plague	n.sg	plague
.	sent	.
</s>
</v>
<v at="5:35">
<s>
While	n.sg	while
he	prn.subj.p3.m.sg	he
yet	cnjadv	yet
spake	vblex.past	speak
,	cm	,
there	adv	there
came from	vblex.past	come from
the	det.def.sp	the
ruler	n.sg	ruler
of	pr	of
the	det.def.sp	the
synagogue	n.sg	synagogue
's	gen	's
house	n.sg	house
certain	adj	certain
which	prn.itg.mf.sp	which
said	vblex.past	say
,	cm	,
Thy	det.pos.sp	thy
daughter	n.sg	daughter
is	vbser.pres.p3.sg	be
dead	adj	dead
:	sent	:
</s>
<s>
why	adv.itg	why
troublest	unknown	troublest
thou	prn.subj.p2.mf.sg	thou
the	det.def.sp	the
Master	adj	master
any	prn.qnt.mf.sp	any
further	adv	further
?	sent	?
</s>
</v>
<v at="5:36">
<s>
As soon as	adv	as soon as
Jesus	np.ant.m.sg	Jesus
heard	vblex.past	hear
the	det.def.sp	the
word	n.sg	word
that	prn.dem.mf.sg	that
was	vbser.past.p1.sg	be
spoken	vblex.pp	speak
,	cm	,
he	prn.subj.p3.m.sg	he
saith	vblex.pres.p3.sg	say
unto	pr	unto
the	det.def.sp	the
ruler	n.sg	ruler
of	pr	of
the	det.def.sp	the
synagogue	n.sg	synagogue
,	cm	,
Be	vbser.inf	be
not	adv	not
afraid	adj	afraid
,	cm	,
only	adv	only
believe	vblex.inf	believe
.	sent	.
</s>
</v>
<v at="5:37">
<s>
And	cnjcoo	and
he	prn.subj.p3.m.sg	he
suffered	vblex.past	suffer
no	det.ind.sp	no
man	n.sg	man
to	pr	to
follow	vblex.inf	follow
him	prn.obj.p3.m.sg	him
,	cm	,
save	vblex.imp	save
Peter	np.ant.m.sg	Peter
,	cm	,
and	cnjcoo	and
James	np.cog.sg	James
,	cm	,
and	cnjcoo	and
John	np.ant.m.sg	John
the	det.def.sp	the
brother	n.sg	brother
of	pr	of
James	np.ant.m.sg	James
.	sent	.
</s>
</v>
<v at="5:38">
<s>
And	cnjcoo	and
he	prn.subj.p3.m.sg	he
cometh	vblex.pres.p3.sg	come
to	pr	to
the	det.def.sp	the
house	n.sg	house
of	pr	of
the	det.def.sp	the
ruler	n.sg	ruler
of	pr	of
the	det.def.sp	the
synagogue	n.sg	synagogue
,	cm	,
and	cnjcoo	and
seeth	unknown	seeth
the	det.def.sp	the
tumult	n.sg	tumult
,	cm	,
and	cnjcoo	and
them	prn.obj.p3.mf.pl	them
that	prn.dem.mf.sg	that
wept	vblex.past	weep
and	cnjcoo	and
wailed	unknown	wailed
greatly	adv	greatly
.	sent	.
</s>
</v>
<v at="5:39">
<s>
And	cnjcoo	and
when	cnjadv	when
he	prn.subj.p3.m.sg	he
was	vbser.past.p1.sg	be
come in	vblex.pp	come in
,	cm	,
he	prn.subj.p3.m.sg	he
saith	vblex.pres.p3.sg	say
unto	pr	unto
them	prn.obj.p3.mf.pl	them
,	cm	,
Why	adv.itg	why
make	n.sg	make
ye	prn.subj.p2.mf.pl	ye
this	prn.dem.mf.sg	this
ado	unknown	ado
,	cm	,
and	cnjcoo	and
weep	vblex.inf	weep
?	sent	?
</s>
<s>
the	det.def.sp	the
damsel	n.sg	damsel
is	vbser.pres.p3.sg	be
not	adv	not
dead	adj	dead
,	cm	,
but	cnjcoo	but
sleepeth	unknown	sleepeth
.	sent	.
</s>
</v>
<v at="5:40">
<s>
And	cnjcoo	and
they	prn.subj.p3.mf.pl	they
laughed	vblex.past	laugh
him	prn.obj.p3.m.sg	him
to	pr	to
scorn	unknown	scorn
.	sent	.
</s>
<s>
But	cnjcoo	but
when	cnjadv	when
he	prn.subj.p3.m.sg	he
had	vbhaver.past	have
put	vblex.pp	put
them	prn.obj.p3.mf.pl	them
all	prn.qnt.mf.sp	all
out	adv	out
,	cm	,
he	prn.subj.p3.m.sg	he
taketh	vblex.pres.p3.sg	take
the	det.def.sp	the
father	n.sg	father
and	cnjcoo	and
the	det.def.sp	the
mother	n.sg	mother
of	pr	of
the	det.def.sp	the
damsel	n.sg	damsel
,	cm	,
and	cnjcoo	and
them	prn.obj.p3.mf.pl	them
that	cnjsub	that
were	vbser.past	be
with	pr	with
him	prn.obj.p3.m.sg	him
,	cm	,
and	cnjcoo	and
entereth	unknown	entereth
in	adv	in
where	adv	where
the	det.def.sp	the
damsel	n.sg	damsel
was	vbser.past.p1.sg	be
lying	unknown	lying
.	sent	.
</s>
</v>
<v at="5:41">
<s>
And	cnjcoo	and
he	prn.subj.p3.m.sg	he
took	vblex.past	take
the	det.def.sp	the
damsel	n.sg	damsel
by	pr	by
the	det.def.sp	the
hand	n.sg	hand
,	cm	,
and	cnjcoo	and
said	vblex.past	say
unto	pr	unto
her	prn.obj.p3.f.sg	her
,	cm	,
Talitha	unknown	Talitha
cumi	unknown	cumi
;	sent	;
</s>
<s>
which	prn.itg.mf.sp	which
is	vbser.pres.p3.sg	be
,	cm	,
being	vbser.ger	be
interpreted	vblex.pp	interpret
,	cm	,
Damsel	n.sg	damsel
,	cm	,
I	prn.subj.p1.mf.sg.min	prpers
say	vblex.pres	say
unto	pr	unto
thee	prn.obj.p2.mf.sg	thou
,	cm	,
arise	vblex.imp	arise
.	sent	.
</s>
</v>
<v at="5:42">
<s>
And	cnjcoo	and
straightway	adv	straightway
the	det.def.sp	the
damsel	n.sg	damsel
arose	vblex.past	arise
,	cm	,
and	cnjcoo	and
walked	vblex.past	walk
;	sent	;
</s>
<s>
for	pr	for
she	prn.subj.p3.f.sg	she
was	vbser.past.p1.sg	be
of	pr	of
the	det.def.sp	the
age	n.sg	age
of	pr	of
twelve	num.pl	twelve
years	n.pl	year
.	sent	.
</s>
<s>
And	cnjcoo	and
they	prn.subj.p3.mf.pl	they
were	vbser.past	be
astonished	vblex.pp	astonish
with	pr	with
a	det.ind.sg	a
great	adj.sint	great
astonishment	n.sg	astonishment
.	sent	.
</s>
</v>
<v at="5:43">
<s>
And	cnjcoo	and
he	prn.subj.p3.m.sg	he
charged	vblex.past	charge
them	prn.obj.p3.mf.pl	them
straitly	unknown	straitly
that	cnjsub	that
no	det.ind.sp	no
man	n.sg	man
should	vbmod.past	shall
know	vblex.inf	know
it	prn.obj.p3.nt.sg	it
;	sent	;
</s>
<s>
and	cnjcoo	and
commanded	vblex.past	command
that	cnjsub	that
something	prn.ind.nt.sg	something
should	vbmod.past	shall
be	vbser.inf	be
given	vblex.pp	give
her	prn.obj.p3.f.sg	her
to	pr	to
eat	vblex.inf	eat
.	sent	.
</s>
</v>
<v at="6:1">
<s>
And	cnjcoo	and
he	prn.subj.p3.m.sg	he
went out	vblex.past	go out
from	pr	from
thence	adv	thence
,	cm	,
and	cnjcoo	and
came	vblex.past	come
into	pr	into
his	det.pos.sp	his
own	adj	own
country	n.sg	country
;	sent	;
</s>
<s>
and	cnjcoo	and
his	adj.pos.pred	his
disciples	n.pl	disciple
follow	vblex.pres	follow
him	prn.obj.p3.m.sg	him
.	sent	.
</s>
</v>
<v at="6:2">
<s>
And	cnjcoo	and
when	cnjadv	when
the	det.def.sp	the
sabbath	n.sg	sabbath
day	n.sg	day
was	vbser.past.p1.sg	be
come	vblex.pp	come
,	cm	,
he	prn.subj.p3.m.sg	he
began	vblex.past	begin
to	pr	to
teach	vblex.inf	teach
in	pr	in
the	det.def.sp	the
synagogue	n.sg	synagogue
:	sent	:
</s>
<s>
and	cnjcoo	and
many	det.qnt.pl	many
hearing	n.sg	hearing
him	prn.obj.p3.m.sg	him
were	vbser.past	be
astonished	vblex.pp	astonish
,	cm	,
saying	vblex.pprs	say
,	cm	,
From	pr	from
whence	adv.itg	whence
hath	vbhaver.pres.p3.sg	have
this	det.dem.sg	this
man	n.sg	man
these	det.dem.pl	this
things	n.pl	thing
?	sent	?
</s>
<s>
and	cnjcoo	and
what	det.itg.sp	what
wisdom	n.sg	wisdom
is	vbser.pres.p3.sg	be
this	prn.dem.mf.sg	this
which	prn.itg.mf.sp	which
is	vbser.pres.p3.sg	be
given	vblex.pp	give
unto	pr	unto
him	prn.obj.p3.m.sg	him
,	cm	,
that	cnjsub	that
even	adv	even
such	det.ind.sp	such
mighty	adj.sint	mighty
works	n.pl	work
are	vbser.pres	be
wrought	unknown	wrought
by	pr	by
his	adj.pos.pred	his
hands	n.pl	hand
?	sent	?
</s>
</v>
<v at="6:3">
<s>
Is	vbser.pres.p3.sg	be
not	adv	not
this	prn.dem.mf.sg	this
the	det.def.sp	the
carpenter	n.sg	carpenter
,	cm	,
the	det.def.sp	the
son	n.sg	son
of	pr	of
Mary	np.ant.f.sg	Mary
,	cm	,
the	det.def.sp	the
brother	n.sg	brother
of	pr	of
James	np.cog.sg	James
,	cm	,
and	cnjcoo	and
Joses	unknown	Joses
,	cm	,
and	cnjcoo	and
of	pr	of
Juda	unknown	Juda
,	cm	,
and	cnjcoo	and
Simon	np.ant.m.sg	Simon
?	sent	?
</s>
<s>
and	cnjcoo	and
are	vbser.pres	be
not	adv	not
his	adj.pos.pred	his
sisters	n.pl	sister
here	adv	here
with	pr	with
us	prn.obj.p1.mf.pl	us
?	sent	?
</s>
<s>
And	cnjcoo	and
they	prn.subj.p3.mf.pl	they
were	vbser.past	be
offended	vblex.pp	offend
at	pr	at
him	prn.obj.p3.m.sg	him
.	sent	.
</s>
</v>
<v at="6:4">
<s>
But	cnjcoo	but
Jesus	np.ant.m.sg	Jesus
said	vblex.past	say
unto	pr	unto
them	prn.obj.p3.mf.pl	them
,	cm	,
A	det.ind.sg	a
prophet	n.sg	prophet
is	vbser.pres.p3.sg	be
not	adv	not
without	pr	without
honour	n.sg	honour
,	cm	,
but	cnjcoo	but
in	pr	in
his	det.pos.sp	his
own	adj	own
country	n.sg	country
,	cm	,
and	cnjcoo	and
among	pr	among
his	det.pos.sp	his
own	adj	own
kin	unknown	kin
,	cm	,
and	cnjcoo	and
in	pr	in
his	det.pos.sp	his
own	adj	own
house	n.sg	house
.	sent	.
</s>
</v>
<v at="6:5">
<s>
And	cnjcoo	and
he	prn.subj.p3.m.sg	he
could	vbmod.past	can
there	adv	there
do	vblex.inf	do
no	det.ind.sp	no
mighty	adj.sint	mighty
work	n.sg	work
,	cm	,
save	vblex.imp	save
that	cnjsub	that
he	prn.subj.p3.m.sg	he
laid	vblex.past	lay
his	adj.pos.pred	his
hands	n.pl	hand
upon	pr	upon
a few	prn.ind.mf.pl	a few
sick	adj.sint	sick
folk	unknown	folk
,	cm	,
and	cnjcoo	and
healed	vblex.past	heal
them	prn.obj.p3.mf.pl	them
.	sent	.
</s>
</v>
<v at="6:6">
<s>
And	cnjcoo	and
he	prn.subj.p3.m.sg	he
marvelled	unknown	marvelled
because of	pr	because of
their	det.pos.sp	their
unbelief	unknown	unbelief
.	sent	.
</s>
<s>
And	cnjcoo	and
he	prn.subj.p3.m.sg	he
went	vblex.past	go
round	pr	round
about	pr	about
the	det.def.sp	the
villages	n.pl	village
,	cm	,
teaching	vblex.pprs	teach
.	sent	.
</s>
</v>
<v at="6:7">
<s>
And	cnjcoo	and
he	prn.subj.p3.m.sg	he
called	vblex.past	call
unto	pr	unto
him	prn.obj.p3.m.sg	him
the	det.def.sp	the
twelve	num.pl	twelve
,	cm	,
and	cnjcoo	and
began	vblex.past	begin
to	pr	to
send	vblex.inf	send
them	prn.obj.p3.mf.pl	them
forth	adv	forth
by	pr	by
two	num.pl	two
and	cnjcoo	and
two	num.pl	two
;	sent	;
</s>
<s>
and	cnjcoo	and
gave	vblex.past	give
them	prn.obj.p3.mf.pl	them
power	vblex.pres	power
over	adv	over
unclean	unknown	unclean
spirits	n.pl	spirit
;	sent	;
</s>
</v>
<v at="6:8">
<s>
And	cnjcoo	and
commanded	vblex.past	command
them	prn.obj.p3.mf.pl	them
that	cnjsub	that
they	prn.subj.p3.mf.pl	they
should	vbmod.past	shall
take	vblex.inf	take
nothing	prn.ind.mf.sg	nothing
for	pr	for
their	det.pos.sp	their
journey	n.sg	journey
,	cm	,
save	vblex.imp	save
a	det.ind.sg	a
staff	n.sg	staff
only	adv	only
;	sent	;
</s>
<s>
no	adv	no
scrip	unknown	scrip
,	cm	,
no	det.ind.sp	no
bread	n.sg	bread
,	cm	,
no	det.ind.sp	no
money	n.sg	money
in	pr	in
their	det.pos.sp	their
purse	n.sg	purse
:	sent	:
</s>
</v>
<v at="6:9">
<s>
But	cnjcoo	but
be	vbser.inf	be
shod	vblex.pp	shoe
with	pr	with
sandals	n.pl	sandal
;	sent	;
</s>
<s>
and	cnjcoo	and
not	adv	not
put	vblex.pp	put
on	pr	on
two	num.pl	two
coats	n.pl	coat
.	sent	.
</s>
</v>
<v at="6:10">
<s>
And	cnjcoo	and
he	prn.subj.p3.m.sg	he
said	vblex.past	say
unto	pr	unto
them	prn.obj.p3.mf.pl	them
,	cm	,
In	pr	in
what	det.itg.sp	what
place	n.sg	place
soever	unknown	soever
ye	prn.subj.p2.mf.pl	ye
enter	vblex.pres	enter
into	pr	into
an	det.ind.sg	a
house	n.sg	house
,	cm	,
there	adv	there
abide	vblex.inf	abide
till	n.sg	till
ye	prn.subj.p2.mf.pl	ye
depart	vblex.pres	depart
from	pr	from
that	det.dem.sg	that
place	n.sg	place
.	sent	.
</s>
</v>
<v at="6:11">
<s>
And	cnjcoo	and
whosoever	prn.rel	whosoever
shall	vbmod.pres	shall
not	adv	not
receive	vblex.inf	receive
you	prn.obj.p2.mf.sp	you
,	cm	,
nor	cnjcoo	nor
hear	vblex.pres	hear
you	prn.obj.p2.mf.sp	you
,	cm	,
when	cnjadv	when
ye	prn.subj.p2.mf.pl	ye
depart	vblex.pres	depart
thence	adv	thence
,	cm	,
shake	n.sg	shake
off	adv	off
the	det.def.sp	the
dust	n.sg	dust
under	pr	under
your	det.pos.sp	your
feet	n.pl	foot
for	pr	for
a	det.ind.sg	a
testimony	n.sg	testimony
against	pr	against
them	prn.obj.p3.mf.pl	them
.	sent	.
</s>
<s>
Verily	adv	verily
I	prn.subj.p1.mf.sg.min	prpers
say	vblex.pres	say
unto	pr	unto
you	prn.obj.p2.mf.sp	you
,	cm	,
It	prn.subj.p3.nt.sg	prpers
shall	vbmod.pres	shall
be	vbser.inf	be
more	adv	more
tolerable	adj	tolerable
for	pr	for
Sodom	unknown	Sodom
and	cnjcoo	and
Gomorrha	unknown	Gomorrha
in	pr	in
the	det.def.sp	the
day	n.sg	day
of	pr	of
judgment	n.sg	judgment
,	cm	,
than	cnjsub	than
for	pr	for
that	det.dem.sg	that
city	n.sg	city
.	sent	.
</s>
</v>
<v at="6:12">
<s>
And	cnjcoo	and
they	prn.subj.p3.mf.pl	they
went out	vblex.past	go out
,	cm	,
and	cnjcoo	and
preached	vblex.past	preach
that	det.dem.sg	that
men	n.pl	man
should	vbmod.past	shall
repent	unknown	repent
.	sent	.
</s>
</v>
<v at="6:13">
<s>
And	cnjcoo	and
they	prn.subj.p3.mf.pl	they
cast	vblex.past	cast
out	pr	out
many	det.qnt.pl	many
devils	n.pl	devil
,	cm	,
and	cnjcoo	and
anointed	vblex.past	anoint
with	pr	with
oil	adj	oil
many	prn.ind.mf.pl	many
that	cnjsub	that
were	vbser.past	be
sick	adj.sint	sick
,	cm	,
and	cnjcoo	and
healed	vblex.past	heal
them	prn.obj.p3.mf.pl	them
.	sent	.
</s>
</v>
<v at="6:14">
<s>
And	cnjcoo	and
king	n.sg	king
Herod	np.ant.m.sg	Herod
heard	vblex.past	hear
of	pr	of
him	prn.obj.p3.m.sg	him
;	sent	;
</s>
<s>
(	lpar	(
for	pr	for
his	det.pos.sp	his
name	n.sg	name
was	vbser.past.p1.sg	be
spread	vblex.pp	spread
abroad	adv	abroad
:	sent	:
</s>
<s>
)	rpar	)
and	cnjcoo	and
he	prn.subj.p3.m.sg	he
said	vblex.past	say
,	cm	,
That	cnjsub	that
John the Baptist	np.ant.m.sg	John the Baptist
was	vbser.past.p1.sg	be
risen	vblex.pp	rise
from	pr	from
the	det.def.sp	the
dead	adj	dead
,	cm	,
and	cnjcoo	and
therefore	cnjadv	therefore
mighty	adj.sint	mighty
works	n.pl	work
do	vblex.pres	do
shew	unknown	shew
forth	adv	forth
themselves	prn.ref.p3.mf.pl	themselves
in	pr	in
him	prn.obj.p3.m.sg	him
.	sent	.
</s>
</v>
<v at="6:15">
<s>
Others	prn.ind.mf.pl	others
said	vblex.past	say
,	cm	,
That	cnjsub	that
it	prn.subj.p3.nt.sg	it
is	vbser.pres.p3.sg	be
Elias	np.ant.m.sg	Elias
.	sent	.
</s>
<s>
And	cnjcoo	and
others	prn.ind.mf.pl	others
said	vblex.past	say
,	cm	,
That	cnjsub	that
it	prn.subj.p3.nt.sg	it
is	vbser.pres.p3.sg	be
a	det.ind.sg	a
prophet	n.sg	prophet
,	cm	,
or	cnjcoo	or
as	pr	as
one	prn.dem.mf.sg	one
of	pr	of
the	det.def.sp	the
prophets	n.pl	prophet
.	sent	.
</s>
</v>
<v at="6:16">
<s>
But	cnjcoo	but
when	cnjadv	when
Herod	np.ant.m.sg	Herod
heard	vblex.past	hear
thereof	adv	thereof
,	cm	,
he	prn.subj.p3.m.sg	he
said	vblex.past	say
,	cm	,
It	prn.subj.p3.nt.sg	prpers
is	vbser.pres.p3.sg	be
John	np.cog.sg	John
,	cm	,
whom	prn.rel.an.mf.sp	whom
I	prn.subj.p1.mf.sg.min	prpers
beheaded	vblex.past	behead
:	sent	:
</s>
<s>
he	prn.subj.p3.m.sg	he
is	vbser.pres.p3.sg	be
risen	vblex.pp	rise
from	pr	from
the	det.def.sp	the
dead	adj	dead
.	sent	.
</s>
</v>
<v at="6:17">
<s>
For	pr	for
Herod	np.ant.m.sg	Herod
himself	prn.ref.p3.m.sg	himself
had	vbhaver.past	have
sent	vblex.pp	send
forth	adv	forth
and	cnjcoo	and
laid	vblex.pp	lay
hold	n.sg	hold
upon	pr	upon
John	np.cog.sg	John
,	cm	,
and	cnjcoo	and
bound	vblex.past	bind
him	prn.obj.p3.m.sg	him
in	pr	in
prison	n.sg	prison
for	pr	for
Herodias	unknown	Herodias
'	apos	'
sake	n.sg	sake
,	cm	,
his	det.pos.sp	his
brother	n.sg	brother
Philip	np.ant.m.sg	Philip
's	gen	's
wife	n.sg	wife
:	sent	:
</s>
<s>
for	pr	for
he	prn.subj.p3.m.sg	he
had	vbhaver.past	have
married	vblex.pp	marry
her	prn.obj.p3.f.sg	her
.	sent	.
</s>
</v>
<v at="6:18">
<s>
For	pr	for
John	np.ant.m.sg	John
had	vbhaver.past	have
said	vblex.pp	say
unto	pr	unto
Herod	np.ant.m.sg	Herod
,	cm	,
It	prn.subj.p3.nt.sg	prpers
is	vbser.pres.p3.sg	be
not	adv	not
lawful	adj	lawful
for	pr	for
thee	prn.obj.p2.mf.sg	thou
to	pr	to
have	vblex.inf	have
thy	det.pos.sp	thy
brother	n.sg	brother
's	gen	's
wife	n.sg	wife
.	sent	.
</s>
</v>
<v at="6:19">
<s>
Therefore	adv	therefore
Herodias	unknown	Herodias
had	vblex.past	have
a	det.ind.sg	a
quarrel	n.sg	quarrel
against	pr	against
him	prn.obj.p3.m.sg	him
,	cm	,
and	cnjcoo	and
would	vbmod.past	will
have	vbhaver.inf	have
killed	vblex.pp	kill
him	prn.obj.p3.m.sg	him
;	sent	;
</s>
<s>
but	cnjcoo	but
she	prn.subj.p3.f.sg	she
could	vbmod.past	can
not	adv	not
:	sent	:
</s>
</v>
<v at="6:20">
<s>
For	pr	for
Herod	np.ant.m.sg	Herod
feared	vblex.past	fear
John	np.ant.m.sg	John
,	cm	,
knowing	vblex.ger	know
that	cnjsub	that
he	prn.subj.p3.m.sg	he
was	vbser.past.p3.sg	be
a	det.ind.sg	a
just	adj.sint	just
man	n.sg	man
and	cnjcoo	and
an	det.ind.sg	a
holy	adj.sint	holy
,	cm	,
and	cnjcoo	and
observed	vblex.past	observe
him	prn.obj.p3.m.sg	him
;	sent	;
</s>
<s>
and	cnjcoo	and
when	cnjadv	when
he	prn.subj.p3.m.sg	he
heard	vblex.past	hear
him	prn.obj.p3.m.sg	him
,	cm	,
he	prn.subj.p3.m.sg	he
did	vblex.past	do
many	det.qnt.pl	many
things	n.pl	thing
,	cm	,
and	cnjcoo	and
heard	vblex.past	hear
him	prn.obj.p3.m.sg	him
gladly	adv	gladly
.	sent	.
</s>
</v>
<v at="6:21">
<s>
And	cnjcoo	and
when	cnjadv	when
a	det.ind.sg	a
convenient	adj	convenient
day	n.sg	day
was	vbser.past.p3.sg	be
come	vblex.pp	come
,	cm	,
that	cnjsub	that
Herod	np.ant.m.sg	Herod
on	pr	on
his	det.pos.sp	his
birthday	n.sg	birthday
made	vblex.past	make
a	det.ind.sg	a
supper	n.sg	supper
to	pr	to
his	adj.pos.pred	his
lords	n.pl	lord
,	cm	,
high	adj.sint	high
captains	n.pl	captain
,	cm	,
and	cnjcoo	and
chief	n.sg	chief
estates	n.pl	estate
of	pr	of
Galilee	unknown	Galilee
;	sent	;
</s>
</v>
<v at="6:22">
<s>
And	cnjcoo	and
when	cnjadv	when
the	det.def.sp	the
daughter	n.sg	daughter
of	pr	of
the	det.def.sp	the
said	vblex.pp	say
Herodias	unknown	Herodias
came in	vblex.past	come in
,	cm	,
and	cnjcoo	and
danced	vblex.past	dance
,	cm	,
and	cnjcoo	and
pleased	vblex.past	please
Herod	np.ant.m.sg	Herod
and	cnjcoo	and
them	prn.obj.p3.mf.pl	them
that	prn.rel.an.mf.sp	that
sat	vblex.past	sit
with	pr	with
him	prn.obj.p3.m.sg	him
,	cm	,
the	det.def.sp	the
king	n.sg	king
said	vblex.past	say
unto	pr	unto
the	det.def.sp	the
damsel	n.sg	damsel
,	cm	,
Ask	vblex.imp	ask
of	pr	of
me	prn.obj.p1.mf.sg	me
whatsoever	prn.rel	whatsoever
thou	prn.subj.p2.mf.sg	thou
wilt	vbmod.pres.p2.sg	will
,	cm	,
and	cnjcoo	and
I	prn.subj.p1.mf.sg.min	prpers
will	vbmod.pres	will
give	vblex.inf	give
it	prn.obj.p3.nt.sg	it
thee	prn.obj.p2.mf.sg	thou
.	sent	.
</s>
</v>
<v at="6:23">
<s>
And	cnjcoo	and
he	prn.subj.p3.m.sg	he
sware	unknown	sware
unto	pr	unto
her	prn.obj.p3.f.sg	her
,	cm	,
Whatsoever	prn.rel	whatsoever
thou	prn.subj.p2.mf.sg	thou
shalt	vbmod.pres.p2.sg	shall
ask	vblex.inf	ask
of	pr	of
me	prn.obj.p1.mf.sg	me
,	cm	,
I	prn.subj.p1.mf.sg.min	prpers
will	vbmod.pres	will
give	vblex.inf	give
it	prn.obj.p3.nt.sg	it
thee	prn.obj.p2.mf.sg	thou
,	cm	,
unto	pr	unto
the	det.def.sp	the
half	n.sg	half
of	pr	of
my	det.pos.sp	my
kingdom	n.sg	kingdom
.	sent	.
</s>
</v>
<v at="6:24">
<s>
And	cnjcoo	and
she	prn.subj.p3.f.sg	she
went	vblex.past	go
forth	adv	forth
,	cm	,
and	cnjcoo	and
said	vblex.past	say
unto	pr	unto
her	det.pos.sp	her
mother	n.sg	mother
,	cm	,
What	prn.rel.nn.mf.sg	what
shall	vbmod.pres	shall
I	prn.subj.p1.mf.sg.min	prpers
ask	vblex.inf	ask
?	sent	?
</s>
<s>
And	cnjcoo	and
she	prn.subj.p3.f.sg	she
said	vblex.past	say
,	cm	,
The	det.def.sp	the
head	n.sg	head
of	pr	of
John the Baptist	np.ant.m.sg	John the Baptist
.	sent	.
</s>
</v>
<v at="6:25">
<s>
And	cnjcoo	and
she	prn.subj.p3.f.sg	she
came in	vblex.past	come in
straightway	adv	straightway
with	pr	with
haste	n.sg	haste
unto	pr	unto
the	det.def.sp	the
king	n.sg	king
,	cm	,
and	cnjcoo	and
asked	vblex.past	ask
,	cm	,
saying	vblex.pprs	say
,	cm	,
I	prn.subj.p1.mf.sg.min	prpers
will	vbmod.pres	will
that	cnjsub	that
thou	prn.subj.p2.mf.sg	thou
give	vblex.pres	give
me	prn.obj.p1.mf.sg	me
by and by	adv	by and by
in	adv	in
a	det.ind.sg	a
charger	unknown	charger
the	det.def.sp	the
head	n.sg	head
of	pr	of
John the Baptist	np.ant.m.sg	John the Baptist
.	sent	.
</s>
</v>
<v at="6:26">
<s>
And	cnjcoo	and
the	det.def.sp	the
king	n.sg	king
was	vbser.past.p1.sg	be
exceeding	vblex.ger	exceed
sorry	adj.sint	sorry
;	sent	;
</s>
<s>
yet	adv	yet
for	pr	for
his	det.pos.sp	his
oath	n.sg	oath
's	gen	's
sake	n.sg	sake
,	cm	,
and	cnjcoo	and
for	pr	for
their	det.pos.sp	their
sakes	n.pl	sake
which	prn.itg.mf.sp	which
sat	vblex.past	sit
with	pr	with
him	prn.obj.p3.m.sg	him
,	cm	,
he	prn.subj.p3.m.sg	he
would	vbmod.past	will
not	adv	not
reject	vblex.inf	reject
her	prn.obj.p3.f.sg	her
.	sent	.
</s>
</v>
<v at="6:27">
<s>
And	cnjcoo	and
immediately	adv	immediately
the	det.def.sp	the
king	n.sg	king
sent	vblex.past	send
an	det.ind.sg	a
executioner	unknown	executioner
,	cm	,
and	cnjcoo	and
commanded	vblex.past	command
his	det.pos.sp	his
head	n.sg	head
to	pr	to
be	vbser.inf	be
brought	vblex.pp	bring
:	sent	:
</s>
<s>
and	cnjcoo	and
he	prn.subj.p3.m.sg	he
went	vblex.past	go
and	cnjcoo	and
beheaded	vblex.past	behead
him	prn.obj.p3.m.sg	him
in	pr	in
the	det.def.sp	the
prison	n.sg	prison
,	cm	,
</v>
<v at="6:28">
And	cnjcoo	and
brought	vblex.past	bring
his	det.pos.sp	his
head	n.sg	head
in	adv	in
a	det.ind.sg	a
charger	unknown	charger
,	cm	,
and	cnjcoo	and
gave	vblex.past	give
it	prn.obj.p3.nt.sg	it
to	pr	to
the	det.def.sp	the
damsel	n.sg	damsel
:	sent	:
</s>
<s>
and	cnjcoo	and
the	det.def.sp	the
damsel	n.sg	damsel
gave	vblex.past	give
it	prn.obj.p3.nt.sg	it
to	pr	to
her	det.pos.sp	her
mother	n.sg	mother
.	sent	.
</s>
</v>
<v at="6:29">
<s>
And	cnjcoo	and
when	cnjadv	when
his	adj.pos.pred	his
disciples	n.pl	disciple
heard	vblex.past	hear
of	pr	of
it	prn.obj.p3.nt.sg	it
,	cm	,
they	prn.subj.p3.mf.pl	they
came	vblex.past	come
and	cnjcoo	and
took	vblex.past	take
up	pr	up
his	det.pos.sp	his
corpse	n.sg	corpse
,	cm	,
and	cnjcoo	and
laid	vblex.pp	lay
it	prn.obj.p3.nt.sg	it
in	pr	in
a	det.ind.sg	a
tomb	n.sg	tomb
.	sent	.
</s>
</v>
<v at="6:30">
<s>
And	cnjcoo	and
the	det.def.sp	the
apostles	n.pl	apostle
gathered	vblex.past	gather
themselves	prn.ref.p3.mf.pl	themselves
together	adj	together
unto	pr	unto
Jesus	np.ant.m.sg	Jesus
,	cm	,
and	cnjcoo	and
told	vblex.past	tell
him	prn.obj.p3.m.sg	him
all	prn.qnt.mf.sp	all
things	n.pl	thing
,	cm	,
both	cnjcoo	both
what	prn.rel.nn.mf.sg	what
they	prn.subj.p3.mf.pl	they
had	vbhaver.past	have
done	vblex.pp	do
,	cm	,
and	cnjcoo	and
what	prn.rel.nn.mf.sg	what
they	prn.subj.p3.mf.pl	they
had	vbhaver.past	have
taught	vblex.pp	teach
.	sent	.
</s>
</v>
<v at="6:31">
<s>
And	cnjcoo	and
he	prn.subj.p3.m.sg	he
said	vblex.past	say
unto	pr	unto
them	prn.obj.p3.mf.pl	them
,	cm	,
Come	vblex.imp	come
ye	prn.subj.p2.mf.pl	ye
yourselves	prn.ref.p2.mf.pl	yourselves
apart	adv	apart
into	pr	into
a	det.ind.sg	a
desert	n.sg	desert
place	n.sg	place
,	cm	,
and	cnjcoo	and
rest	vblex.pres	rest
a while	adv	a while
:	sent	:
</s>
<s>
for	pr	for
there	adv	there
were	vbser.past	be
many	prn.ind.mf.pl	many
coming	vblex.subs	come
and	cnjcoo	and
going	vblex.ger	go
,	cm	,
and	cnjcoo	and
they	prn.subj.p3.mf.pl	they
had	vblex.past	have
no	det.ind.sp	no
leisure	n.sg	leisure
so much	adv	so much
as	pr	as
to	pr	to
eat	vblex.inf	eat
.	sent	.
</s>
</v>
<v at="6:32">
<s>
And	cnjcoo	and
they	prn.subj.p3.mf.pl	they
departed	vblex.past	depart
into	pr	into
a	det.ind.sg	a
desert	n.sg	desert
place	n.sg	place
by	pr	by
ship	n.sg	ship
privately	adv	privately
.	sent	.
</s>
</v>
<v at="6:33">
<s>
And	cnjcoo	and
the	det.def.sp	the
people	n.pl	person
saw	vblex.past	see
them	prn.obj.p3.mf.pl	them
departing	vblex.pprs	depart
,	cm	,
and	cnjcoo	and
many	prn.ind.mf.pl	many
knew	vblex.past	know
him	prn.obj.p3.m.sg	him
,	cm	,
and	cnjcoo	and
ran	vblex.past	run
afoot	unknown	afoot
thither	adv	thither
out of	pr	out of
all	predet.sp	all
cities	n.pl	city
,	cm	,
and	cnjcoo	and
outwent	unknown	outwent
them	prn.obj.p3.mf.pl	them
,	cm	,
and	cnjcoo	and
came	vblex.past	come
together	adj	together
unto	pr	unto
him	prn.obj.p3.m.sg	him
.	sent	.
</s>
</v>
<v at="6:34">
<s>
And	cnjcoo	and
Jesus	np.ant.m.sg	Jesus
,	cm	,
when	cnjadv	when
he	prn.subj.p3.m.sg	he
came out	vblex.past	come out
,	cm	,
saw	vblex.imp	saw
much	det.qnt.sg	much
people	n.pl	person
,	cm	,
and	cnjcoo	and
was	vbser.past.p3.sg	be
moved	vblex.pp	move
with	pr	with
compassion	n.sg	compassion
toward	unknown	toward
them	prn.obj.p3.mf.pl	them
,	cm	,
because	cnjadv	because
they	prn.subj.p3.mf.pl	they
were	vbser.past	be
as	pr	as
sheep	n.sg	sheep
not	adv	not
having	vblex.pprs	have
a	det.ind.sg	a
shepherd	n.sg	shepherd
:	sent	:
</s>
<s>
and	cnjcoo	and
he	prn.subj.p3.m.sg	he
began	vblex.past	begin
to	pr	to
teach	vblex.inf	teach
them	prn.obj.p3.mf.pl	them
many	det.qnt.pl	many
things	n.pl	thing
.	sent	.
</s>
</v>
<v at="6:35">
<s>
And	cnjcoo	and
when	cnjadv	when
the	det.def.sp	the
day	n.sg	day
was	vbser.past.p3.sg	be
now	adv	now
far	adj.sint	far
spent	vblex.pp	spend
,	cm	,
his	adj.pos.pred	his
disciples	n.pl	disciple
came	vblex.past	come
unto	pr	unto
him	prn.obj.p3.m.sg	him
,	cm	,
and	cnjcoo	and
said	vblex.past	say
,	cm	,
This	prn.dem.mf.sg	this
is	vbser.pres.p3.sg	be
a	det.ind.sg	a
desert	n.sg	desert
place	n.sg	place
,	cm	,
and	cnjcoo	and
now	adv	now
the	det.def.sp	the
time	n.sg	time
is	vbser.pres.p3.sg	be
far	adv	far
passed	vblex.pp	pass
:	sent	:
</s>
</v>
<v at="6:36">
<s>
Send	vblex.imp	send
them	prn.obj.p3.mf.pl	them
away	adv	away
,	cm	,
that	cnjsub	that
they	prn.subj.p3.mf.pl	they
may	vbmod.pres	may
go	vblex.inf	go
into	pr	into
the	det.def.sp	the
country	n.sg	country
round	n.sg	round
about	adv	about
,	cm	,
and	cnjcoo	and
into	pr	into
the	det.def.sp	the
villages	n.pl	village
,	cm	,
and	cnjcoo	and
buy	vblex.pres	buy
themselves	prn.ref.p3.mf.pl	themselves
bread	n.sg	bread
:	sent	:
</s>
<s>
for	pr	for
they	prn.subj.p3.mf.pl	they
have	vblex.pres	have
nothing	prn.ind.mf.sg	nothing
to	pr	to
eat	vblex.inf	eat
.	sent	.
</s>
</v>
<v at="6:37">
<s>
He	prn.subj.p3.m.sg	prpers
answered	vblex.past	answer
and	cnjcoo	and
said	vblex.past	say
unto	pr	unto
them	prn.obj.p3.mf.pl	them
,	cm	,
Give	vblex.imp	give
ye	prn.subj.p2.mf.pl	ye
them	prn.obj.p3.mf.pl	them
to	pr	to
eat	vblex.inf	eat
.	sent	.
</s>
<s>
And	cnjcoo	and
they	prn.subj.p3.mf.pl	they
say	vblex.pres	say
unto	pr	unto
him	prn.obj.p3.m.sg	him
,	cm	,
Shall	vbmod.pres	shall
we	prn.subj.p1.mf.pl	we
go	vblex.inf	go
and	cnjcoo	and
buy	vblex.inf	buy
two hundred	num.pl	two hundred
pennyworth	unknown	pennyworth
of	pr	of
bread	n.sg	bread
,	cm	,
and	cnjcoo	and
give	vblex.pres	give
them	prn.obj.p3.mf.pl	them
to	pr	to
eat	vblex.inf	eat
?	sent	?
</s>
</v>
<v at="6:38">
<s>
He	prn.subj.p3.m.sg	prpers
saith	vblex.pres.p3.sg	say
unto	pr	unto
them	prn.obj.p3.mf.pl	them
,	cm	,
How many	prn.itg.mf.pl	how many
loaves	n.pl	loaf
have	vblex.pres	have
ye	prn.subj.p2.mf.pl	ye
?	sent	?
</s>
<s>
go	vblex.imp	go
and	cnjcoo	and
see	vblex.imp	see
.	sent	.
</s>
<s>
And	cnjcoo	and
when	cnjadv	when
they	prn.subj.p3.mf.pl	they
knew	vblex.past	know
,	cm	,
they	prn.subj.p3.mf.pl	they
say	vblex.pres	say
,	cm	,
Five	num.pl	five
,	cm	,
and	cnjcoo	and
two	num.pl	two
fishes	n.pl	fish
.	sent	.
</s>
</v>
<v at="6:39">
<s>
And	cnjcoo	and
he	prn.subj.p3.m.sg	he
commanded	vblex.past	command
them	prn.obj.p3.mf.pl	them
to	pr	to
make	vblex.inf	make
all	predet.sp	all
sit down	vblex.inf	sit down
by	pr	by
companies	n.pl	company
upon	pr	upon
the	det.def.sp	the
green	adj.sint	green
grass	n.sg	grass
.	sent	.
</s>
</v>
<v at="6:40">
<s>
And	cnjcoo	and
they	prn.subj.p3.mf.pl	they
sat down	vblex.past	sit down
in	pr	in
ranks	n.pl	rank
,	cm	,
by	pr	by
hundreds	n.pl	hundred
,	cm	,
and	cnjcoo	and
by	pr	by
fifties	unknown	fifties
.	sent	.
</s>
</v>
<v at="6:41">
<s>
And	cnjcoo	and
when	cnjadv	when
he	prn.subj.p3.m.sg	he
had	vbhaver.past	have
taken	vblex.pp	take
the	det.def.sp	the
five	num.pl	five
loaves	n.pl	loaf
and	cnjcoo	and
the	det.def.sp	the
two	num.pl	two
fishes	n.pl	fish
,	cm	,
he	prn.subj.p3.m.sg	he
looked	vblex.past	look
up to	pr	up to
heaven	n.sg	heaven
,	cm	,
and	cnjcoo	and
blessed	vblex.past	bless
,	cm	,
and	cnjcoo	and
brake	vblex.pres	brake
the	det.def.sp	the
loaves	n.pl	loaf
,	cm	,
and	cnjcoo	and
gave	vblex.past	give
them	prn.obj.p3.mf.pl	them
to	pr	to
his	adj.pos.pred	his
disciples	n.pl	disciple
to	pr	to
set	vblex.inf	set
before	pr	before
them	prn.obj.p3.mf.pl	them
;	sent	;
</s>
<s>
and	cnjcoo	and
the	det.def.sp	the
two	num.pl	two
fishes	n.pl	fish
divided	vblex.past	divide
he	prn.subj.p3.m.sg	he
among	pr	among
them	prn.obj.p3.mf.pl	them
all	prn.qnt.mf.sp	all
.	sent	.
</s>
</v>
<v at="6:42">
<s>
And	cnjcoo	and
they	prn.subj.p3.mf.pl	they
did	vblex.past	do
all	prn.qnt.mf.sp	all
eat	vblex.pres	eat
,	cm	,
and	cnjcoo	and
were	vbser.past	be
filled	vblex.pp	fill
.	sent	.
</s>
</v>
<v at="6:43">
<s>
And	cnjcoo	and
they	prn.subj.p3.mf.pl	they
took	vblex.past	take
up	pr	up
twelve	num.pl	twelve
baskets	n.pl	basket
full	adj.sint	full
of	pr	of
the	det.def.sp	the
fragments	n.pl	fragment
,	cm	,
and	cnjcoo	and
of	pr	of
the	det.def.sp	the
fishes	n.pl	fish
.	sent	.
</s>
</v>
<v at="6:44">
<s>
And	cnjcoo	and
they	prn.subj.p3.mf.pl	they
that	cnjsub	that
did	vbdo.past	do
eat	vblex.inf	eat
of	pr	of
the	det.def.sp	the
loaves	n.pl	loaf
were	vbser.past	be
about	pr	about
five thousand	num.pl	five thousand
men	n.pl	man
.	sent	.
</s>
</v>
<v at="6:45">
<s>
And	cnjcoo	and
straightway	adv	straightway
he	prn.subj.p3.m.sg	he
constrained	vblex.past	constrain
his	adj.pos.pred	his
disciples	n.pl	disciple
to	pr	to
get	vblex.inf	get
into	pr	into
the	det.def.sp	the
ship	n.sg	ship
,	cm	,
and	cnjcoo	and
to	pr	to
go	vblex.inf	go
to	pr	to
the other	det.def.sp	the
side	n.sg	side
before	cnjadv	before
unto	pr	unto
Bethsaida	unknown	Bethsaida
,	cm	,
while	cnjadv	while
he	prn.subj.p3.m.sg	he
sent	vblex.past	send
away	adv	away
the	det.def.sp	the
people	n.pl	person
.	sent	.
</s>
</v>
<v at="6:46">
<s>
And	cnjcoo	and
when	cnjadv	when
he	prn.subj.p3.m.sg	he
had	vbhaver.past	have
sent	vblex.pp	send
them	prn.obj.p3.mf.pl	them
away	adv	away
,	cm	,
he	prn.subj.p3.m.sg	he
departed	vblex.past	depart
into	pr	into
a	det.ind.sg	a
mountain	n.sg	mountain
to	pr	to
pray	vblex.inf	pray
.	sent	.
</s>
</v>
<v at="6:47">
<s>
And	cnjcoo	and
when	cnjadv	when
even	adv	even
was	vbser.past.p1.sg	be
come	vblex.pp	come
,	cm	,
the	det.def.sp	the
ship	n.sg	ship
was	vbser.past.p3.sg	be
in	adv	in
the	det.def.sp	the
midst	unknown	midst
of	pr	of
the	det.def.sp	the
sea	n.sg	sea
,	cm	,
and	cnjcoo	and
he	prn.subj.p3.m.sg	he
alone	adv	alone
on	pr	on
the	det.def.sp	the
land	n.sg	land
.	sent	.
</s>
</v>
<v at="6:48">
<s>
And	cnjcoo	and
he	prn.subj.p3.m.sg	he
saw	vblex.past	see
them	prn.obj.p3.mf.pl	them
toiling	unknown	toiling
in	adv	in
rowing	vblex.ger	row
;	sent	;
</s>
<s>
for	pr	for
the	det.def.sp	the
wind	n.sg	wind
was	vbser.past.p1.sg	be
contrary	adj	contrary
unto	pr	unto
them	prn.obj.p3.mf.pl	them
:	sent	:
</s>
<s>
and	cnjcoo	and
about	pr	about
the	det.def.sp	the
fourth	adj.ord	fourth
watch	n.sg	watch
of	pr	of
the	det.def.sp	the
night	n.sg	night
he	prn.subj.p3.m.sg	he
cometh	vblex.pres.p3.sg	come
unto	pr	unto
them	prn.obj.p3.mf.pl	them
,	cm	,
walking	vblex.subs	walk
upon	pr	upon
the	det.def.sp	the
sea	n.sg	sea
,	cm	,
and	cnjcoo	and
would	vbmod.past	will
have	vbhaver.inf	have
passed	vblex.pp	pass
by	pr	by
them	prn.obj.p3.mf.pl	them
.	sent	.
</s>
</v>
<v at="6:49">
<s>
But	cnjcoo	but
when	cnjadv	when
they	prn.subj.p3.mf.pl	they
saw	vblex.past	see
him	prn.obj.p3.m.sg	him
walking	vblex.subs	walk
upon	pr	upon
the	det.def.sp	the
sea	n.sg	sea
,	cm	,
they	prn.subj.p3.mf.pl	they
supposed	vblex.past	suppose
it	prn.obj.p3.nt.sg	it
had	vbhaver.past	have
been	vbser.pp	be
a	det.ind.sg	a
spirit	n.sg	spirit
,	cm	,
and	cnjcoo	and
cried	vblex.past	cry
out	adv	out
:	sent	:
</s>
</v>
<v at="6:50">
<s>
For	pr	for
they all	prn.subj.p3.mf.pl	they all
saw	vblex.past	see
him	prn.obj.p3.m.sg	him
,	cm	,
and	cnjcoo	and
were	vbser.past	be
troubled	vblex.pp	trouble
.	sent	.
</s>
<s>
And	cnjcoo	and
immediately	adv	immediately
he	prn.subj.p3.m.sg	he
talked	vblex.past	talk
with	pr	with
them	prn.obj.p3.mf.pl	them
,	cm	,
and	cnjcoo	and
saith	vblex.pres.p3.sg	say
unto	pr	unto
them	prn.obj.p3.mf.pl	them
,	cm	,
Be	vbser.inf	be
of	pr	of
good	n.sg	good
cheer	vblex.pres	cheer
:	sent	:
</s>
<s>
it	prn.subj.p3.nt.sg	it
is	vbser.pres.p3.sg	be
I	prn.subj.p1.mf.sg.min	prpers
;	sent	;
</s>
<s>
be	vbser.inf	be
not	adv	not
afraid	adj	afraid
.	sent	.
</s>
</v>
<v at="6:51">
<s>
And	cnjcoo	and
he	prn.subj.p3.m.sg	he
went up	vblex.past	go up
unto	pr	unto
them	prn.obj.p3.mf.pl	them
into	pr	into
the	det.def.sp	the
ship	n.sg	ship
;	sent	;
</s>
<s>
and	cnjcoo	and
the	det.def.sp	the
wind	n.sg	wind
ceased	vblex.past	cease
:	sent	:
</s>
<s>
and	cnjcoo	and
they	prn.subj.p3.mf.pl	they
were	vbser.past	be
sore	n.sg	sore
amazed	vblex.pp	amaze
in	pr	in
themselves	prn.ref.p3.mf.pl	themselves
beyond measure	adv	beyond measure
,	cm	,
and	cnjcoo	and
wondered	vblex.past	wonder
.	sent	.
</s>
</v>
<v at="6:52">
<s>
For	pr	for
they	prn.subj.p3.mf.pl	they
considered	vblex.past	consider
not	adv	not
the	det.def.sp	the
miracle	n.sg	miracle
of	pr	of
the	det.def.sp	the
loaves	n.pl	loaf
:	sent	:
</s>
<s>
for	pr	for
their	det.pos.sp	their
heart	n.sg	heart
was	vbser.past.p3.sg	be
hardened	vblex.pp	harden
.	sent	.
</s>
</v>
<v at="6:53">
<s>
And	cnjcoo	and
when	cnjadv	when
they	prn.subj.p3.mf.pl	they
had	vbhaver.past	have
passed	vblex.pp	pass
over	adv	over
,	cm	,
they	prn.subj.p3.mf.pl	they
came	vblex.past	come
into	pr	into
the	det.def.sp	the
land	n.sg	land
of	pr	of
Gennesaret	unknown	Gennesaret
,	cm	,
and	cnjcoo	and
drew	vblex.past	draw
to	pr	to
the	det.def.sp	the
shore	n.sg	shore
.	sent	.
</s>
</v>
<v at="6:54">
<s>
And	cnjcoo	and
when	cnjadv	when
they	prn.subj.p3.mf.pl	they
were	vbser.past	be
come out	vblex.pp	come out
of	pr	of
the	det.def.sp	the
ship	n.sg	ship
,	cm	,
straightway	adv	straightway
they	prn.subj.p3.mf.pl	they
knew	vblex.past	know
him	prn.obj.p3.m.sg	him
,	cm	,
</v>
<v at="6:55">
And	cnjcoo	and
ran	vblex.past	run
through	pr	through
that	det.dem.sg	that
whole	adj	whole
region	n.sg	region
round	n.sg	round
about	adv	about
,	cm	,
and	cnjcoo	and
began	vblex.past	begin
to	pr	to
carry	vblex.inf	carry
about	adv	about
in	adv	in
beds	vblex.pres.p3.sg	bed
those that	prn.rel.nn.mf.pl	those that
were	vbser.past	be
sick	adj.sint	sick
,	cm	,
where	adv	where
they	prn.subj.p3.mf.pl	they
heard	vblex.past	hear
he	prn.subj.p3.m.sg	he
was	vbser.past.p1.sg	be
.	sent	.
</s>
</v>
<v at="6:56">
<s>
And	cnjcoo	and
whithersoever	unknown	whithersoever
he	prn.subj.p3.m.sg	he
entered	vblex.past	enter
,	cm	,
into	pr	into
villages	n.pl	village
,	cm	,
or	cnjcoo	or
cities	n.pl	city
,	cm	,
or	cnjcoo	or
country	n.sg	country
,	cm	,
they	prn.subj.p3.mf.pl	they
laid	vblex.past	lay
the	det.def.sp	the
sick	adj.sint	sick
in	pr	in
the	det.def.sp	the
streets	n.pl	street
,	cm	,
and	cnjcoo	and
besought	vblex.past	beseech
him	prn.obj.p3.m.sg	him
that	cnjsub	that
they	prn.subj.p3.mf.pl	they
might	vbmod.pres	might
touch	vblex.inf	touch
if	cnjsub	if
it	prn.subj.p3.nt.sg	it
were	vbser.past	be
but	cnjcoo	but
the	det.def.sp	the
border	n.sg	border
of	pr	of
his	det.pos.sp	his
garment	n.sg	garment
:	sent	:
</s>
<s>
and	cnjcoo	and
as	pr	as
many	prn.ind.mf.pl	many
as	pr	as
touched	vblex.past	touch
him	prn.obj.p3.m.sg	him
were	vbser.past	be
made	vblex.pp	make
whole	adj	whole
.	sent	.
</s>
</v>
<v at="7:1">
<s>
Then	adv	then
came	vblex.past	come
together	adj	together
unto	pr	unto
him	prn.obj.p3.m.sg	him
the	det.def.sp	the
Pharisees	unknown	Pharisees
,	cm	,
and	cnjcoo	and
certain	adj	certain
of	pr	of
the	det.def.sp	the
scribes	n.pl	scribe
,	cm	,
which	prn.itg.mf.sp	which
came from	vblex.past	come from
Jerusalem	np.top.sg	Jerusalem
.	sent	.
</s>
</v>
<v at="7:2">
<s>
And	cnjcoo	and
when	cnjadv	when
they	prn.subj.p3.mf.pl	they
saw	vblex.past	see
some	prn.ind.mf.pl	some
of	pr	of
his	adj.pos.pred	his
disciples	n.pl	disciple
eat	vblex.pres	eat
bread	n.sg	bread
with	pr	with
defiled	unknown	defiled
,	cm	,
that is to say	adv	that is to say
,	cm	,
with	pr	with
unwashen	unknown	unwashen
,	cm	,
hands	n.pl	hand
,	cm	,
they	prn.subj.p3.mf.pl	they
found	vblex.past	find
fault	n.sg	fault
.	sent	.
</s>
</v>
<v at="7:3">
<s>
For	pr	for
the	det.def.sp	the
Pharisees	unknown	Pharisees
,	cm	,
and	cnjcoo	and
all	predet.sp	all
the	det.def.sp	the
Jews	unknown	Jews
,	cm	,
except	pr	except
they	prn.subj.p3.mf.pl	they
wash	vblex.pres	wash
their	det.pos.sp	their
hands	n.pl	hand
oft	unknown	oft
,	cm	,
eat	vblex.imp	eat
not	adv	not
,	cm	,
holding	vblex.ger	hold
the	det.def.sp	the
tradition	n.sg	tradition
of	pr	of
the	det.def.sp	the
elders	n.pl	elder
.	sent	.
</s>
</v>
<v at="7:4">
<s>
And	cnjcoo	and
when	cnjadv	when
they	prn.subj.p3.mf.pl	they
come from	vblex.pres	come from
the	det.def.sp	the
market	n.sg	market
,	cm	,
except	pr	except
they	prn.subj.p3.mf.pl	they
wash	vblex.pres	wash
,	cm	,
they	prn.subj.p3.mf.pl	they
eat	vblex.pres	eat
not	adv	not
.	sent	.
</s>
<s>
And	cnjcoo	and
many	prn.ind.mf.pl	many
other	det.ind.sp	other
things	n.pl	thing
there	adv	there
be	vbser.inf	be
,	cm	,
which	prn.itg.mf.sp	which
they	prn.subj.p3.mf.pl	they
have	vbhaver.inf	have
received	vblex.pp	receive
to	pr	to
hold	vblex.inf	hold
,	cm	,
as	cnjadv	as
the	det.def.sp	the
washing	n.sg	washing
of	pr	of
cups	n.pl	cup
,	cm	,
and	cnjcoo	and
pots	n.pl	pot
,	cm	,
brasen	unknown	brasen
vessels	n.pl	vessel
,	cm	,
and	cnjcoo	and
of	pr	of
tables	n.pl	table
.	sent	.
</s>
</v>
<v at="7:5">
<s>
Then	adv	then
the	det.def.sp	the
Pharisees	unknown	Pharisees
and	cnjcoo	and
scribes	n.pl	scribe
asked	vblex.past	ask
him	prn.obj.p3.m.sg	him
,	cm	,
Why	adv.itg	why
walk	n.sg	walk
not	adv	not
thy	det.pos.sp	thy
disciples	n.pl	disciple
according to	pr	according to
the	det.def.sp	the
tradition	n.sg	tradition
of	pr	of
the	det.def.sp	the
elders	n.pl	elder
,	cm	,
but	cnjcoo	but
eat	vblex.inf	eat
bread	n.sg	bread
with	pr	with
unwashen	unknown	unwashen
hands	n.pl	hand
?	sent	?
</s>
</v>
<v at="7:6">
<s>
He	prn.subj.p3.m.sg	prpers
answered	vblex.past	answer
and	cnjcoo	and
said	vblex.past	say
unto	pr	unto
them	prn.obj.p3.mf.pl	them
,	cm	,
Well	adv	well
hath	vbhaver.pres.p3.sg	have
Esaias	unknown	Esaias
prophesied	unknown	prophesied
of	pr	of
you	prn.obj.p2.mf.sp	you
hypocrites	unknown	hypocrites
,	cm	,
as	cnjadv	as
it	prn.subj.p3.nt.sg	it
is	vbser.pres.p3.sg	be
written	vblex.pp	write
,	cm	,
This	det.dem.sg	this
people	n.pl	person
honoureth	unknown	honoureth
me	prn.obj.p1.mf.sg	me
with	pr	with
their	det.pos.sp	their
lips	n.pl	lip
,	cm	,
but	cnjcoo	but
their	det.pos.sp	their
heart	n.sg	heart
is	vbser.pres.p3.sg	be
far	adv	far
from	pr	from
me	prn.obj.p1.mf.sg	me
.	sent	.
</s>
</v>
<v at="7:7">
<s>
Howbeit	unknown	Howbeit
in vain	adv	in vain
do	vbdo.pres	do
they	prn.subj.p3.mf.pl	they
worship	vblex.inf	worship
me	prn.obj.p1.mf.sg	me
,	cm	,
teaching	vblex.pprs	teach
for	pr	for
doctrines	n.pl	doctrine
the	det.def.sp	the
commandments	n.pl	commandment
of	pr	of
men	n.pl	man
.	sent	.
</s>
</v>
<v at="7:8">
<s>
For	pr	for
laying	vblex.pprs	lay
aside	adv	aside
the	det.def.sp	the
commandment	n.sg	commandment
of	pr	of
God	n.sg	god
,	cm	,
ye	prn.subj.p2.mf.pl	ye
hold	vblex.pres	hold
the	det.def.sp	the
tradition	n.sg	tradition
of	pr	of
men	n.pl	man
,	cm	,
as	cnjadv	as
the	det.def.sp	the
washing	n.sg	washing
of	pr	of
pots	n.pl	pot
and	cnjcoo	and
cups	n.pl	cup
:	sent	:
</s>
<s>
and	cnjcoo	and
many	prn.ind.mf.pl	many
other	det.ind.sp	other
such	det.ind.sp	such
like	pr	like
things	n.pl	thing
ye	prn.subj.p2.mf.pl	ye
do	vblex.inf	do
.	sent	.
</s>
</v>
<v at="7:9">
<s>
And	cnjcoo	and
he	prn.subj.p3.m.sg	he
said	vblex.past	say
unto	pr	unto
them	prn.obj.p3.mf.pl	them
,	cm	,
Full	adj.sint	full
well	adv	well
ye	prn.subj.p2.mf.pl	ye
reject	vblex.pres	reject
the	det.def.sp	the
commandment	n.sg	commandment
of	pr	of
God	n.sg	god
,	cm	,
that	cnjsub	that
ye	prn.subj.p2.mf.pl	ye
may	vbmod.pres	may
keep	vblex.inf	keep
your	det.pos.sp	your
own	adj	own
tradition	n.sg	tradition
.	sent	.
</s>
</v>
<v at="7:10">
<s>
For	pr	for
Moses	np.ant.m.sg	Moses
said	vblex.past	say
,	cm	,
Honour	vblex.imp	honour
thy	det.pos.sp	thy
father	n.sg	father
and	cnjcoo	and
thy	det.pos.sp	thy
mother	n.sg	mother
;	sent	;
</s>
<s>
and	cnjcoo	and
,	cm	,
Whoso	unknown	Whoso
curseth	unknown	curseth
father	n.sg	father
or	cnjcoo	or
mother	n.sg	mother
,	cm	,
let	vblex.imp	let
him	prn.obj.p3.m.sg	him
die	vblex.pres	die
the	det.def.sp	the
death	n.sg	death
:	sent	:
</s>
</v>
<v at="7:11">
<s>
But	cnjcoo	but
ye	prn.subj.p2.mf.pl	ye
say	vblex.pres	say
,	cm	,
If	cnjsub	if
a	det.ind.sg	a
man	n.sg	man
shall	vbmod.pres	shall
say	vblex.inf	say
to	pr	to
his	det.pos.sp	his
father	n.sg	father
or	cnjcoo	or
mother	n.sg	mother
,	cm	,
It	prn.subj.p3.nt.sg	prpers
is	vbser.pres.p3.sg	be
Corban	unknown	Corban
,	cm	,
that is to say	adv	that is to say
,	cm	,
a	det.ind.sg	a
gift	n.sg	gift
,	cm	,
by	pr	by
whatsoever	prn.rel	whatsoever
thou	prn.subj.p2.mf.sg	thou
mightest	unknown	mightest
be	vbser.inf	be
profited	unknown	profited
by	pr	by
me	prn.obj.p1.mf.sg	me
;	sent	;
</s>
<s>
he	prn.subj.p3.m.sg	he
shall	vbmod.pres	shall
be	vbser.inf	be
free	adj.sint	free
.	sent	.
</s>
</v>
<v at="7:12">
<s>
And	cnjcoo	and
ye	prn.subj.p2.mf.pl	ye
suffer	vblex.pres	suffer
him	prn.obj.p3.m.sg	him
no	adv	no
more	adv	more
to	pr	to
do	vblex.inf	do
ought	unknown	ought
for	pr	for
his	det.pos.sp	his
father	n.sg	father
or	cnjcoo	or
his	det.pos.sp	his
mother	n.sg	mother
;	sent	;
</s>
</v>
<v at="7:13">
<s>
Making	vblex.pprs	make
the	det.def.sp	the
word	n.sg	word
of	pr	of
God	n.sg	god
of	pr	of
none	prn.ind.nt.sg	none
effect	vblex.pres	effect
through	pr	through
your	det.pos.sp	your
tradition	n.sg	tradition
,	cm	,
which	prn.itg.mf.sp	which
ye	prn.subj.p2.mf.pl	ye
have	vbhaver.inf	have
delivered	vblex.pp	deliver
:	sent	:
</s>
<s>
and	cnjcoo	and
many	prn.ind.mf.pl	many
such	det.ind.sp	such
like	pr	like
things	n.pl	thing
do	vblex.inf	do
ye	prn.subj.p2.mf.pl	ye
.	sent	.
</s>
</v>
<v at="7:14">
<s>
And	cnjcoo	and
when	cnjadv	when
he	prn.subj.p3.m.sg	he
had	vbhaver.past	have
called	vblex.pp	call
all	predet.sp	all
the	det.def.sp	the
people	n.pl	person
unto	pr	unto
him	prn.obj.p3.m.sg	him
,	cm	,
he	prn.subj.p3.m.sg	he
said	vblex.past	say
unto	pr	unto
them	prn.obj.p3.mf.pl	them
,	cm	,
Hearken	unknown	Hearken
unto	pr	unto
me	prn.obj.p1.mf.sg	me
every	det.ind.sg	every
one	prn.dem.mf.sg	one
of	pr	of
you	prn.obj.p2.mf.sp	you
,	cm	,
and	cnjcoo	and
understand	vblex.pres	understand
:	sent	:
</s>
</v>
<v at="7:15">
<s>
There	adv	there
is	vbser.pres.p3.sg	be
nothing	prn.ind.mf.sg	nothing
from	pr	from
without	pr	without
a	det.ind.sg	a
man	n.sg	man
,	cm	,
that	cnjsub	that
entering	vblex.subs	enter
into	pr	into
him	prn.obj.p3.m.sg	him
can	vbmod.pres	can
defile	unknown	defile
him	prn.obj.p3.m.sg	him
:	sent	:
</s>
<s>
but	cnjcoo	but
the	det.def.sp	the
things	n.pl	thing
which	prn.itg.mf.sp	which
come out	vblex.pp	come out
of	pr	of
him	prn.obj.p3.m.sg	him
,	cm	,
those	prn.dem.mf.pl	that
are	vbser.pres	be
they	prn.subj.p3.mf.pl	they
that	cnjsub	that
defile	unknown	defile
the	det.def.sp	the
man	n.sg	man
.	sent	.
</s>
</v>
<v at="7:16">
<s>
If	cnjsub	if
any	det.ind.sp	any
man	n.sg	man
have	vblex.pres	have
ears	n.pl	ear
to	pr	to
hear	vblex.inf	hear
,	cm	,
let	vblex.imp	let
him	prn.obj.p3.m.sg	him
hear	vblex.pres	hear
.	sent	.
</s>
</v>
<v at="7:17">
<s>
And	cnjcoo	and
when	cnjadv	when
he	prn.subj.p3.m.sg	he
was	vbser.past.p3.sg	be
entered	vblex.pp	enter
into	pr	into
the	det.def.sp	the
house	n.sg	house
from	pr	from
the	det.def.sp	the
people	n.pl	person
,	cm	,
his	adj.pos.pred	his
disciples	n.pl	disciple
asked	vblex.past	ask
him	prn.obj.p3.m.sg	him
concerning	pr	concerning
the	det.def.sp	the
parable	n.sg	parable
.	sent	.
</s>
</v>
<v at="7:18">
<s>
And	cnjcoo	and
he	prn.subj.p3.m.sg	he
saith	vblex.pres.p3.sg	say
unto	pr	unto
them	prn.obj.p3.mf.pl	them
,	cm	,
Are	vbser.pres	be
ye	prn.subj.p2.mf.pl	ye
so	cnjadv	so
without	pr	without
understanding	vblex.pprs	understand
also	adv	also
?	sent	?
</s>
<s>
Do	vblex.imp	do
ye	prn.subj.p2.mf.pl	ye
not	adv	not
perceive	vblex.inf	perceive
,	cm	,
that	cnjsub	that
whatsoever	prn.rel	whatsoever
thing	n.sg	thing
from	pr	from
without	pr	without
entereth	unknown	entereth
into	pr	into
the	det.def.sp	the
man	n.sg	man
,	cm	,
it	prn.subj.p3.nt.sg	it
cannot	vbmod.pres	can
defile	unknown	defile
him	prn.obj.p3.m.sg	him
;	sent	;
</s>
</v>
<v at="7:19">
<s>
Because	cnjadv	because
it	prn.obj.p3.nt.sg	it
entereth	unknown	entereth
not	adv	not
into	pr	into
his	det.pos.sp	his
heart	n.sg	heart
,	cm	,
but	cnjcoo	but
into	pr	into
the	det.def.sp	the
belly	n.sg	belly
,	cm	,
and	cnjcoo	and
goeth	vblex.pres.p3.sg	go
out	adv	out
into	pr	into
the	det.def.sp	the
draught	n.sg	draught
,	cm	,
purging	vblex.ger	purge
all	prn.qnt.mf.sp	all
meats	n.pl	meat
?	sent	?
</s>
</v>
<v at="7:20">
<s>
And	cnjcoo	and
he	prn.subj.p3.m.sg	he
said	vblex.past	say
,	cm	,
That	cnjsub	that
which	prn.itg.mf.sp	which
cometh	vblex.pres.p3.sg	come
out of	pr	out of
the	det.def.sp	the
man	n.sg	man
,	cm	,
that	prn.rel.an.mf.sp	that
defileth	unknown	defileth
the	det.def.sp	the
man	n.sg	man
.	sent	.
</s>
</v>
<v at="7:21">
<s>
For	pr	for
from	pr	from
within	adv	within
,	cm	,
out of	pr	out of
the	det.def.sp	the
heart	n.sg	heart
of	pr	of
men	n.pl	man
,	cm	,
proceed	vblex.imp	proceed
evil	n.sg	evil
thoughts	n.pl	thought
,	cm	,
adulteries	n.pl	adultery
,	cm	,
fornications	unknown	fornications
,	cm	,
murders	n.pl	murder
,	cm	,
</v>
<v at="7:22">
Thefts	n.pl	theft
,	cm	,
covetousness	unknown	covetousness
,	cm	,
wickedness	unknown	wickedness
,	cm	,
deceit	n.sg	deceit
,	cm	,
lasciviousness	n.sg	lasciviousness
,	cm	,
an	det.ind.sg	a
evil	n.sg	evil
eye	n.sg	eye
,	cm	,
blasphemy	n.sg	blasphemy
,	cm	,
pride	n.sg	pride
,	cm	,
foolishness	n.sg	foolishness
:	sent	:
</s>
</v>
<v at="7:23">
<s>
All	prn.qnt.mf.sp	all
these	det.dem.pl	this
evil	n.sg	evil
things	n.pl	thing
come from	vblex.pp	come from
within	adv	within
,	cm	,
and	cnjcoo	and
defile	unknown	defile
the	det.def.sp	the
man	n.sg	man
.	sent	.
</s>
</v>
<v at="7:24">
<s>
And	cnjcoo	and
from	pr	from
thence	adv	thence
he	prn.subj.p3.m.sg	he
arose	vblex.past	arise
,	cm	,
and	cnjcoo	and
went	vblex.past	go
into	pr	into
the	det.def.sp	the
borders	n.pl	border
of	pr	of
Tyre	n.sg	tyre
and	cnjcoo	and
Sidon	np.top.sg	Sidon
,	cm	,
and	cnjcoo	and
entered	vblex.past	enter
into	pr	into
an	det.ind.sg	a
house	n.sg	house
,	cm	,
and	cnjcoo	and
would	vbmod.past	will
have	vblex.inf	have
no	det.ind.sp	no
man	n.sg	man
know	vblex.pres	know
it	prn.obj.p3.nt.sg	it
:	sent	:
</s>
<s>
but	cnjcoo	but
he	prn.subj.p3.m.sg	he
could	vbmod.past	can
not	adv	not
be	vbser.inf	be
hid	vblex.pp	hide
.	sent	.
</s>
</v>
<v at="7:25">
<s>
For	pr	for
a	det.ind.sg	a
certain	adj	certain
woman	n.sg	woman
,	cm	,
whose	det.pos.mf.sp	whose
young	adj.sint	young
daughter	n.sg	daughter
had	vblex.past	have
an	det.ind.sg	a
unclean	unknown	unclean
spirit	n.sg	spirit
,	cm	,
heard	vblex.past	hear
of	pr	of
him	prn.obj.p3.m.sg	him
,	cm	,
and	cnjcoo	and
came	vblex.past	come
and	cnjcoo	and
fell	vblex.past	fall
at	pr	at
his	adj.pos.pred	his
feet	n.pl	foot
:	sent	:
</s>
</v>
<v at="7:26">
<s>
The	det.def.sp	the
woman	n.sg	woman
was	vbser.past.p3.sg	be
a	det.ind.sg	a
Greek	adj	greek
,	cm	,
a	det.ind.sg	a
Syrophenician	unknown	Syrophenician
by	pr	by
nation	n.sg	nation
;	sent	;
</s>
<s>
and	cnjcoo	and
she	prn.subj.p3.f.sg	she
besought	vblex.past	beseech
him	prn.obj.p3.m.sg	him
that	cnjsub	that
he	prn.subj.p3.m.sg	he
would	vbmod.past	will
cast	vblex.inf	cast
forth	adv	forth
the	det.def.sp	the
devil	n.sg	devil
out of	pr	out of
her	det.pos.sp	her
daughter	n.sg	daughter
.	sent	.
</s>
</v>
<v at="7:27">
<s>
But	cnjcoo	but
Jesus	np.ant.m.sg	Jesus
said	vblex.past	say
unto	pr	unto
her	prn.obj.p3.f.sg	her
,	cm	,
Let	vblex.imp	let
the	det.def.sp	the
children	n.pl	child
first	adj.ord	first
be	vbser.inf	be
filled	vblex.pp	fill
:	sent	:
</s>
<s>
for	pr	for
it	prn.subj.p3.nt.sg	it
is	vbser.pres.p3.sg	be
not	adv	not
meet	vblex.inf	meet
to	pr	to
take	vblex.inf	take
the	det.def.sp	the
children	n.pl	child
's	gen	's
bread	n.sg	bread
,	cm	,
and	cnjcoo	and
to	pr	to
cast	vblex.inf	cast
it	prn.obj.p3.nt.sg	it
unto	pr	unto
the	det.def.sp	the
dogs	n.pl	dog
.	sent	.
</s>
</v>
<v at="7:28">
<s>
And	cnjcoo	and
she	prn.subj.p3.f.sg	she
answered	vblex.past	answer
and	cnjcoo	and
said	vblex.past	say
unto	pr	unto
him	prn.obj.p3.m.sg	him
,	cm	,
Yes	adv	yes
,	cm	,
Lord	n.sg	lord
:	sent	:
</s>
<s>
yet	adv	yet
the	det.def.sp	the
dogs	n.pl	dog
under	pr	under
the	det.def.sp	the
table	n.sg	table
eat	vblex.pres	eat
of	pr	of
the	det.def.sp	the
children	n.pl	child
's	gen	's
crumbs	n.pl	crumb
.	sent	.
</s>
</v>
<v at="7:29">
<s>
And	cnjcoo	and
he	prn.subj.p3.m.sg	he
said	vblex.past	say
unto	pr	unto
her	prn.obj.p3.f.sg	her
,	cm	,
For	pr	for
this	det.dem.sg	this
saying	n.sg	saying
go	vblex.pres	go
thy	det.pos.sp	thy
way	n.sg	way
;	sent	;
</s>
<s>
the	det.def.sp	the
devil	n.sg	devil
is	vbser.pres.p3.sg	be
gone out	vblex.pp	go out
of	pr	of
thy	det.pos.sp	thy
daughter	n.sg	daughter
.	sent	.
</s>
</v>
<v at="7:30">
<s>
And	cnjcoo	and
when	cnjadv	when
she	prn.subj.p3.f.sg	she
was	vbser.past.p3.sg	be
come	vblex.pp	come
to	pr	to
her	det.pos.sp	her
house	n.sg	house
,	cm	,
she	prn.subj.p3.f.sg	she
found	vblex.past	find
the	det.def.sp	the
devil	n.sg	devil
gone out	vblex.pp	go out
,	cm	,
and	cnjcoo	and
her	det.pos.sp	her
daughter	n.sg	daughter
laid	vblex.past	lay
upon	pr	upon
the	det.def.sp	the
bed	n.sg	bed
.	sent	.
</s>
</v>
<v at="7:31">
<s>
And	cnjcoo	and
again	adv	again
,	cm	,
departing	vblex.subs	depart
from	pr	from
the	det.def.sp	the
coasts	n.pl	coast
of	pr	of
Tyre	n.sg	tyre
and	cnjcoo	and
Sidon	np.top.sg	Sidon
,	cm	,
he	prn.subj.p3.m.sg	he
came	vblex.past	come
unto	pr	unto
the	det.def.sp	the
sea	n.sg	sea
of	pr	of
Galilee	unknown	Galilee
,	cm	,
through	pr	through
the	det.def.sp	the
midst	unknown	midst
of	pr	of
the	det.def.sp	the
coasts	n.pl	coast
of	pr	of
Decapolis	unknown	Decapolis
.	sent	.
</s>
</v>
<v at="7:32">
<s>
And	cnjcoo	and
they	prn.subj.p3.mf.pl	they
bring	vblex.pres	bring
unto	pr	unto
him	prn.obj.p3.m.sg	him
one	prn.dem.mf.sg	one
that	prn.rel.an.mf.sp	that
was	vbser.past.p1.sg	be
deaf	adj.sint	deaf
,	cm	,
and	cnjcoo	and
had	vblex.past	have
an	det.ind.sg	a
impediment	n.sg	impediment
in	pr	in
his	det.pos.sp	his
speech	n.sg	speech
;	sent	;
</s>
<s>
and	cnjcoo	and
they	prn.subj.p3.mf.pl	they
beseech	unknown	beseech
him	prn.obj.p3.m.sg	him
to	pr	to
put	vblex.inf	put
his	det.pos.sp	his
hand	n.sg	hand
upon	pr	upon
him	prn.obj.p3.m.sg	him
.	sent	.
</s>
</v>
<v at="7:33">
<s>
And	cnjcoo	and
he	prn.subj.p3.m.sg	he
took	vblex.past	take
him	prn.obj.p3.m.sg	him
aside	adv	aside
from	pr	from
the	det.def.sp	the
multitude	n.sg	multitude
,	cm	,
and	cnjcoo	and
put	vblex.past	put
his	adj.pos.pred	his
fingers	n.pl	finger
into	pr	into
his	adj.pos.pred	his
ears	n.pl	ear
,	cm	,
and	cnjcoo	and
he	prn.subj.p3.m.sg	he
spit	n.sg	spit
,	cm	,
and	cnjcoo	and
touched	vblex.past	touch
his	det.pos.sp	his
tongue	n.sg	tongue
;	sent	;
</s>
</v>
<v at="7:34">
<s>
And	cnjcoo	and
looking	vblex.subs	look
up to	pr	up to
heaven	n.sg	heaven
,	cm	,
he	prn.subj.p3.m.sg	he
sighed	vblex.past	sigh
,	cm	,
and	cnjcoo	and
saith	vblex.pres.p3.sg	say
unto	pr	unto
him	prn.obj.p3.m.sg	him
,	cm	,
Ephphatha	unknown	Ephphatha
,	cm	,
that	prn.dem.mf.sg	that
is	vbser.pres.p3.sg	be
,	cm	,
Be	vbser.inf	be
opened	vblex.pp	open
.	sent	.
</s>
</v>
<v at="7:35">
<s>
And	cnjcoo	and
straightway	adv	straightway
his	adj.pos.pred	his
ears	n.pl	ear
were	vbser.past	be
opened	vblex.pp	open
,	cm	,
and	cnjcoo	and
the	det.def.sp	the
string	n.sg	string
of	pr	of
his	det.pos.sp	his
tongue	n.sg	tongue
was	vbser.past.p3.sg	be
loosed	unknown	loosed
,	cm	,
and	cnjcoo	and
he	prn.subj.p3.m.sg	he
spake	vblex.past	speak
plain	n.sg	plain
.	sent	.
</s>
</v>
<v at="7:36">
<s>
And	cnjcoo	and
he	prn.subj.p3.m.sg	he
charged	vblex.past	charge
them	prn.obj.p3.mf.pl	them
that	cnjsub	that
they	prn.subj.p3.mf.pl	they
should	vbmod.past	shall
tell	vblex.inf	tell
no	det.ind.sp	no
man	n.sg	man
:	sent	:
</s>
<s>
but	cnjcoo	but
the	det.def.sp	the
more	preadv	more
he	prn.subj.p3.m.sg	he
charged	vblex.past	charge
them	prn.obj.p3.mf.pl	them
,	cm	,
so much	adv	so much
the	det.def.sp	the
more	adv	more
a	det.ind.sg	a
great	adj.sint	great
deal	n.sg	deal
they	prn.subj.p3.mf.pl	they
published	vblex.past	publish
it	prn.obj.p3.nt.sg	it
;	sent	;
</s>
</v>
<v at="7:37">
<s>
And	cnjcoo	and
were	vbser.past	be
beyond measure	adv	beyond measure
astonished	vblex.pp	astonish
,	cm	,
saying	vblex.pprs	say
,	cm	,
He	prn.subj.p3.m.sg	prpers
hath	vbhaver.pres.p3.sg	have
done	vblex.pp	do
all	prn.qnt.mf.sp	all
things	n.pl	thing
well	adv	well
:	sent	:
</s>
<s>
he	prn.subj.p3.m.sg	he
maketh	unknown	maketh
both	cnjcoo	both
the	det.def.sp	the
deaf	adj.sint	deaf
to	pr	to
hear	vblex.inf	hear
,	cm	,
and	cnjcoo	and
the	det.def.sp	the
dumb	adj.sint	dumb
to	pr	to
speak	vblex.inf	speak
.	sent	.
</s>
</v>
<v at="8:1">
<s>
In	pr	in
those	det.dem.pl	that
days	n.pl	day
the	det.def.sp	the
multitude	n.sg	multitude
being	vbser.pprs	be
very	preadv	very
great	adj.sint	great
,	cm	,
and	cnjcoo	and
having	vblex.pprs	have
nothing	prn.ind.mf.sg	nothing
to	pr	to
eat	vblex.inf	eat
,	cm	,
Jesus	np.ant.m.sg	Jesus
called	vblex.past	call
his	adj.pos.pred	his
disciples	n.pl	disciple
unto	pr	unto
him	prn.obj.p3.m.sg	him
,	cm	,
and	cnjcoo	and
saith	vblex.pres.p3.sg	say
unto	pr	unto
them	prn.obj.p3.mf.pl	them
,	cm	,
</v>
<v at="8:2">
I	prn.subj.p1.mf.sg.min	prpers
have	vblex.pres	have
compassion	n.sg	compassion
on	adv	on
the	det.def.sp	the
multitude	n.sg	multitude
,	cm	,
because	cnjadv	because
they	prn.subj.p3.mf.pl	they
have	vbhaver.pres	have
now	adv	now
been	vbser.pp	be
with	pr	with
me	prn.obj.p1.mf.sg	me
three	num.pl	three
days	n.pl	day
,	cm	,
and	cnjcoo	and
have	vblex.pres	have
nothing	prn.ind.mf.sg	nothing
to	pr	to
eat	vblex.inf	eat
:	sent	:
</s>
</v>
<v at="8:3">
<s>
And	cnjcoo	and
if	cnjsub	if
I	prn.subj.p1.mf.sg.min	prpers
send	vblex.pres	send
them	prn.obj.p3.mf.pl	them
away	adv	away
fasting	unknown	fasting
to	pr	to
their	det.pos.sp	their
own	adj	own
houses	n.pl	house
,	cm	,
they	prn.subj.p3.mf.pl	they
will	vbmod.pres	will
faint	unknown	faint
by the way	adv	by the way
:	sent	:
</s>
<s>
for	pr	for
divers	n.pl	diver
of	pr	of
them	prn.obj.p3.mf.pl	them
came from	vblex.past	come from
far	adv	far
.	sent	.
</s>
</v>
<v at="8:4">
<s>
And	cnjcoo	and
his	adj.pos.pred	his
disciples	n.pl	disciple
answered	vblex.past	answer
him	prn.obj.p3.m.sg	him
,	cm	,
From	pr	from
whence	adv.itg	whence
can	vbmod.pres	can
a	det.ind.sg	a
man	n.sg	man
satisfy	vblex.pres	satisfy
these	det.dem.pl	this
men	n.pl	man
with	pr	with
bread	n.sg	bread
here	adv	here
in	pr	in
the	det.def.sp	the
wilderness	n.sg	wilderness
?	sent	?
</s>
</v>
<v at="8:5">
<s>
And	cnjcoo	and
he	prn.subj.p3.m.sg	he
asked	vblex.past	ask
them	prn.obj.p3.mf.pl	them
,	cm	,
How many	prn.itg.mf.pl	how many
loaves	n.pl	loaf
have	vblex.pres	have
ye	prn.subj.p2.mf.pl	ye
?	sent	?
</s>
<s>
And	cnjcoo	and
they	prn.subj.p3.mf.pl	they
said	vblex.past	say
,	cm	,
Seven	num.pl	seven
.	sent	.
</s>
</v>
<v at="8:6">
<s>
And	cnjcoo	and
he	prn.subj.p3.m.sg	he
commanded	vblex.past	command
the	det.def.sp	the
people	n.pl	person
to	pr	to
sit down	vblex.inf	sit down
on	pr	on
the	det.def.sp	the
ground	n.sg	ground
:	sent	:
</s>
<s>
and	cnjcoo	and
he	prn.subj.p3.m.sg	he
took	vblex.past	take
the	det.def.sp	the
seven	num.pl	seven
loaves	n.pl	loaf
,	cm	,
and	cnjcoo	and
gave	vblex.past	give
thanks	ij	thanks
,	cm	,
and	cnjcoo	and
brake	n.sg	brake
,	cm	,
and	cnjcoo	and
gave	vblex.past	give
to	pr	to
his	adj.pos.pred	his
disciples	n.pl	disciple
to	pr	to
set	vblex.inf	set
before	pr	before
them	prn.obj.p3.mf.pl	them
;	sent	;
</s>
<s>
and	cnjcoo	and
they	prn.subj.p3.mf.pl	they
did	vbdo.past	do
set	vblex.inf	set
them	prn.obj.p3.mf.pl	them
before	pr	before
the	det.def.sp	the
people	n.pl	person
.	sent	.
</s>
</v>
<v at="8:7">
<s>
And	cnjcoo	and
they	prn.subj.p3.mf.pl	they
had	vblex.past	have
a few	det.qnt.pl	a few
small	adj.sint	small
fishes	n.pl	fish
:	sent	:
</s>
<s>
and	cnjcoo	and
he	prn.subj.p3.m.sg	he
blessed	vblex.past	bless
,	cm	,
and	cnjcoo	and
commanded	vblex.past	command
to	pr	to
set	vblex.inf	set
them	prn.obj.p3.mf.pl	them
also	adv	also
before	pr	before
them	prn.obj.p3.mf.pl	them
.	sent	.
</s>
</v>
<v at="8:8">
<s>
So	cnjadv	so
they	prn.subj.p3.mf.pl	they
did	vbdo.past	do
eat	vblex.inf	eat
,	cm	,
and	cnjcoo	and
were	vbser.past	be
filled	vblex.pp	fill
:	sent	:
</s>
<s>
and	cnjcoo	and
they	prn.subj.p3.mf.pl	they
took	vblex.past	take
up	adv	up
of	pr	of
the	det.def.sp	the
broken	adj	broken
meat	n.sg	meat
that	prn.rel.an.mf.sp	that
was left	vblex.past.p3.sg	be left
seven	num.pl	seven
baskets	n.pl	basket
.	sent	.
</s>
</v>
<v at="8:9">
<s>
And	cnjcoo	and
they	prn.subj.p3.mf.pl	they
that	cnjsub	that
had	vbhaver.past	have
eaten	vblex.pp	eat
were	vbser.past	be
about	pr	about
four thousand	num.pl	four thousand
:	sent	:
</s>
<s>
and	cnjcoo	and
he	prn.subj.p3.m.sg	he
sent	vblex.past	send
them	prn.obj.p3.mf.pl	them
away	adv	away
.	sent	.
</s>
</v>
<v at="8:10">
<s>
And	cnjcoo	and
straightway	adv	straightway
he	prn.subj.p3.m.sg	he
entered	vblex.past	enter
into	pr	into
a	det.ind.sg	a
ship	n.sg	ship
with	pr	with
his	adj.pos.pred	his
disciples	n.pl	disciple
,	cm	,
and	cnjcoo	and
came	vblex.past	come
into	pr	into
the	det.def.sp	the
parts	n.pl	part
of	pr	of
Dalmanutha	unknown	Dalmanutha
.	sent	.
</s>
</v>
<v at="8:11">
<s>
And	cnjcoo	and
the	det.def.sp	the
Pharisees	unknown	Pharisees
came	vblex.past	come
forth	adv	forth
,	cm	,
and	cnjcoo	and
began	vblex.past	begin
to	pr	to
question	vblex.inf	question
with	pr	with
him	prn.obj.p3.m.sg	him
,	cm	,
seeking	vblex.subs	seek
of	pr	of
him	prn.obj.p3.m.sg	him
a	det.ind.sg	a
sign	n.sg	sign
from	pr	from
heaven	n.sg	heaven
,	cm	,
tempting	vblex.pprs	tempt
him	prn.obj.p3.m.sg	him
.	sent	.
</s>
</v>
<v at="8:12">
<s>
And	cnjcoo	and
he	prn.subj.p3.m.sg	he
sighed	vblex.past	sigh
deeply	adv	deeply
in	pr	in
his	det.pos.sp	his
spirit	n.sg	spirit
,	cm	,
and	cnjcoo	and
saith	vblex.pres.p3.sg	say
,	cm	,
Why	adv.itg	why
doth	vbdo.pres.p3.sg	do
this	det.dem.sg	this
generation	n.sg	generation
seek	vblex.pres	seek
after	pr	after
a	det.ind.sg	a
sign	n.sg	sign
?	sent	?
</s>
<s>
verily	adv	verily
I	prn.subj.p1.mf.sg.min	prpers
say	vblex.pres	say
unto	pr	unto
you	prn.obj.p2.mf.sp	you
,	cm	,
There	adv	there
shall	vbmod.pres	shall
no	adv	no
sign	vblex.inf	sign
be	vbser.inf	be
given	vblex.pp	give
unto	pr	unto
this	det.dem.sg	this
generation	n.sg	generation
.	sent	.
</s>
</v>
<v at="8:13">
<s>
And	cnjcoo	and
he	prn.subj.p3.m.sg	he
left	vblex.past	leave
them	prn.obj.p3.mf.pl	them
,	cm	,
and	cnjcoo	and
entering	vblex.subs	enter
into	pr	into
the	det.def.sp	the
ship	n.sg	ship
again	adv	again
departed	vblex.past	depart
to	pr	to
the other	det.def.sp	the
side	n.sg	side
.	sent	.
</s>
</v>
<v at="8:14">
<s>
Now	adv	now
the	det.def.sp	the
disciples	n.pl	disciple
had	vbhaver.past	have
forgotten	vblex.pp	forget
to	pr	to
take	vblex.inf	take
bread	n.sg	bread
,	cm	,
neither	cnjcoo	neither
had	vblex.past	have
they	prn.subj.p3.mf.pl	they
in	pr	in
the	det.def.sp	the
ship	n.sg	ship
with	pr	with
them	prn.obj.p3.mf.pl	them
more	adv	more
than	cnjsub	than
one	num.sg	one
loaf	unknown	loaf
.	sent	.
</s>
</v>
<v at="8:15">
<s>
And	cnjcoo	and
he	prn.subj.p3.m.sg	he
charged	vblex.past	charge
them	prn.obj.p3.mf.pl	them
,	cm	,
saying	vblex.pprs	say
,	cm	,
Take	vblex.imp	take
heed	unknown	heed
,	cm	,
beware	unknown	beware
of	pr	of
the	det.def.sp	the
leaven	unknown	leaven
of	pr	of
the	det.def.sp	the
Pharisees	unknown	Pharisees
,	cm	,
and	cnjcoo	and
of	pr	of
the	det.def.sp	the
leaven	unknown	leaven
of	pr	of
Herod	np.ant.m.sg	Herod
.	sent	.
</s>
</v>
<v at="8:16">
<s>
And	cnjcoo	and
they	prn.subj.p3.mf.pl	they
reasoned	vblex.past	reason
among	pr	among
themselves	prn.ref.p3.mf.pl	themselves
,	cm	,
saying	vblex.ger	say
,	cm	,
It	prn.subj.p3.nt.sg	prpers
is	vbser.pres.p3.sg	be
because	cnjadv	because
we	prn.subj.p1.mf.pl	we
have	vblex.pres	have
no	det.ind.sp	no
bread	n.sg	bread
.	sent	.
</s>
</v>
<v at="8:17">
<s>
And	cnjcoo	and
when	cnjadv	when
Jesus	np.ant.m.sg	Jesus
knew	vblex.past	know
it	prn.obj.p3.nt.sg	it
,	cm	,
he	prn.subj.p3.m.sg	he
saith	vblex.pres.p3.sg	say
unto	pr	unto
them	prn.obj.p3.mf.pl	them
,	cm	,
Why	adv.itg	why
reason	n.sg	reason
ye	prn.subj.p2.mf.pl	ye
,	cm	,
because	cnjadv	because
ye	prn.subj.p2.mf.pl	ye
have	vblex.pres	have
no	det.ind.sp	no
bread	n.sg	bread
?	sent	?
</s>
<s>
perceive	vblex.imp	perceive
ye	prn.subj.p2.mf.pl	ye
not yet	adv	not yet
,	cm	,
neither	cnjcoo	neither
understand	vblex.pres	understand
?	sent	?
</s>
<s>
have	vblex.imp	have
ye	prn.subj.p2.mf.pl	ye
your	det.pos.sp	your
heart	n.sg	heart
yet	cnjadv	yet
hardened	vblex.pp	harden
?	sent	?
</s>
</v>
<v at="8:18">
<s>
Having	vblex.ger	have
eyes	n.pl	eye
,	cm	,
see	vblex.imp	see
ye	prn.subj.p2.mf.pl	ye
not	adv	not
?	sent	?
</s>
<s>
and	cnjcoo	and
having	vblex.ger	have
ears	n.pl	ear
,	cm	,
hear	vblex.imp	hear
ye	prn.subj.p2.mf.pl	ye
not	adv	not
?	sent	?
</s>
<s>
and	cnjcoo	and
do	vblex.pres	do
ye	prn.subj.p2.mf.pl	ye
not	adv	not
remember	vblex.inf	remember
?	sent	?
</s>
</v>
<v at="8:19">
<s>
When	adv.itg	when
I	prn.subj.p1.mf.sg.min	prpers
brake	vblex.pres	brake
the	det.def.sp	the
five	num.pl	five
loaves	n.pl	loaf
among	pr	among
five thousand	num.pl	five thousand
,	cm	,
how many	det.itg.pl	how many
baskets	n.pl	basket
full	adj.sint	full
of	pr	of
fragments	n.pl	fragment
took	vblex.past	take
ye	prn.subj.p2.mf.pl	ye
up	adv	up
?	sent	?
</s>
<s>
They	prn.subj.p3.mf.pl	prpers
say	vblex.pres	say
unto	pr	unto
him	prn.obj.p3.m.sg	him
,	cm	,
Twelve	num.pl	twelve
.	sent	.
</s>
</v>
<v at="8:20">
<s>
And	cnjcoo	and
when	cnjadv	when
the	det.def.sp	the
seven	num.pl	seven
among	pr	among
four thousand	num.pl	four thousand
,	cm	,
how many	det.itg.pl	how many
baskets	n.pl	basket
full	adj.sint	full
of	pr	of
fragments	n.pl	fragment
took	vblex.past	take
ye	prn.subj.p2.mf.pl	ye
up	adv	up
?	sent	?
</s>
<s>
And	cnjcoo	and
they	prn.subj.p3.mf.pl	they
said	vblex.past	say
,	cm	,
Seven	num.pl	seven
.	sent	.
</s>
</v>
<v at="8:21">
<s>
And	cnjcoo	and
he	prn.subj.p3.m.sg	he
said	vblex.past	say
unto	pr	unto
them	prn.obj.p3.mf.pl	them
,	cm	,
How	preadv	how
is	vbser.pres.p3.sg	be
it	prn.subj.p3.nt.sg	it
that	cnjsub	that
ye	prn.subj.p2.mf.pl	ye
do	vbdo.pres	do
not	adv	not
understand	vblex.inf	understand
?	sent	?
</s>
</v>
<v at="8:22">
<s>
And	cnjcoo	and
he	prn.subj.p3.m.sg	he
cometh	vblex.pres.p3.sg	come
to	pr	to
Bethsaida	unknown	Bethsaida
;	sent	;
</s>
<s>
and	cnjcoo	and
they	prn.subj.p3.mf.pl	they
bring	vblex.pres	bring
a	det.ind.sg	a
blind	adj.sint	blind
man	n.sg	man
unto	pr	unto
him	prn.obj.p3.m.sg	him
,	cm	,
and	cnjcoo	and
besought	vblex.past	beseech
him	prn.obj.p3.m.sg	him
to	pr	to
touch	vblex.inf	touch
him	prn.obj.p3.m.sg	him
.	sent	.
</s>
</v>
<v at="8:23">
<s>
And	cnjcoo	and
he	prn.subj.p3.m.sg	he
took	vblex.past	take
the	det.def.sp	the
blind	adj.sint	blind
man	n.sg	man
by	pr	by
the	det.def.sp	the
hand	n.sg	hand
,	cm	,
and	cnjcoo	and
led	vblex.past	lead
him	prn.obj.p3.m.sg	him
out of	pr	out of
the	det.def.sp	the
town	n.sg	town
;	sent	;
</s>
<s>
and	cnjcoo	and
when	cnjadv	when
he	prn.subj.p3.m.sg	he
had	vblex.past	have
spit	n.sg	spit
on	pr	on
his	adj.pos.pred	his
eyes	n.pl	eye
,	cm	,
and	cnjcoo	and
put	vblex.past	put
his	adj.pos.pred	his
hands	n.pl	hand
upon	pr	upon
him	prn.obj.p3.m.sg	him
,	cm	,
he	prn.subj.p3.m.sg	he
asked	vblex.past	ask
him	prn.obj.p3.m.sg	him
if	cnjsub	if
he	prn.subj.p3.m.sg	he
saw	vblex.past	see
ought	unknown	ought
.	sent	.
</s>
</v>
<v at="8:24">
<s>
And	cnjcoo	and
he	prn.subj.p3.m.sg	he
looked	vblex.past	look
up	adv	up
,	cm	,
and	cnjcoo	and
said	vblex.past	say
,	cm	,
I	prn.subj.p1.mf.sg.min	prpers
see	vblex.pres	see
men	n.pl	man
as	pr	as
trees	n.pl	tree
,	cm	,
walking	vblex.pprs	walk
.	sent	.
</s>
</v>
<v at="8:25">
<s>
After that	adv	after that
he	prn.subj.p3.m.sg	he
put	vblex.past	put
his	adj.pos.pred	his
hands	n.pl	hand
again	adv	again
upon	pr	upon
his	adj.pos.pred	his
eyes	n.pl	eye
,	cm	,
and	cnjcoo	and
made	vblex.past	make
him	prn.obj.p3.m.sg	him
look	vblex.pres	look
up	adv	up
:	sent	:
</s>
<s>
and	cnjcoo	and
he	prn.subj.p3.m.sg	he
was	vbser.past.p1.sg	be
restored	vblex.pp	restore
,	cm	,
and	cnjcoo	and
saw	vblex.past	see
every	det.ind.sg	every
man	n.sg	man
clearly	adv	clearly
.	sent	.
</s>
</v>
<v at="8:26">
<s>
And	cnjcoo	and
he	prn.subj.p3.m.sg	he
sent	vblex.past	send
him	prn.obj.p3.m.sg	him
away	adv	away
to	pr	to
his	det.pos.sp	his
house	n.sg	house
,	cm	,
saying	vblex.ger	say
,	cm	,
Neither	cnjcoo	neither
go	vblex.pres	go
into	pr	into
the	det.def.sp	the
town	n.sg	town
,	cm	,
nor	cnjcoo	nor
tell	vblex.inf	tell
it	prn.obj.p3.nt.sg	it
to	pr	to
any	prn.qnt.mf.sp	any
in	pr	in
the	det.def.sp	the
town	n.sg	town
.	sent	.
</s>
</v>
<v at="8:27">
<s>
And	cnjcoo	and
Jesus	np.ant.m.sg	Jesus
went out	vblex.past	go out
,	cm	,
and	cnjcoo	and
his	adj.pos.pred	his
disciples	n.pl	disciple
,	cm	,
into	pr	into
the	det.def.sp	the
towns	n.pl	town
of	pr	of
Caesarea	unknown	Caesarea
Philippi	unknown	Philippi
:	sent	:
</s>
<s>
and	cnjcoo	and
by the way	adv	by the way
he	prn.subj.p3.m.sg	he
asked	vblex.past	ask
his	adj.pos.pred	his
disciples	n.pl	disciple
,	cm	,
saying	vblex.ger	say
unto	pr	unto
them	prn.obj.p3.mf.pl	them
,	cm	,
Whom	prn.rel.an.mf.sp	whom
do	vblex.inf	do
men	n.pl	man
say	vblex.pres	say
that	cnjsub	that
I	prn.subj.p1.mf.sg.min	prpers
am	vbser.pres.p1.sg	be
?	sent	?
</s>
</v>
<v at="8:28">
<s>
And	cnjcoo	and
they	prn.subj.p3.mf.pl	they
answered	vblex.past	answer
,	cm	,
John the Baptist	np.ant.m.sg	John the Baptist
:	sent	:
</s>
<s>
but	cnjcoo	but
some	prn.ind.mf.pl	some
say	vblex.pres	say
,	cm	,
Elias	np.ant.m.sg	Elias
;	sent	;
</s>
<s>
and	cnjcoo	and
others	prn.ind.mf.pl	others
,	cm	,
One	prn.dem.mf.sg	one
of	pr	of
the	det.def.sp	the
prophets	n.pl	prophet
.	sent	.
</s>
</v>
<v at="8:29">
<s>
And	cnjcoo	and
he	prn.subj.p3.m.sg	he
saith	vblex.pres.p3.sg	say
unto	pr	unto
them	prn.obj.p3.mf.pl	them
,	cm	,
But	cnjcoo	but
whom	prn.rel.an.mf.sp	whom
say	vblex.pres	say
ye	prn.subj.p2.mf.pl	ye
that	cnjsub	that
I	prn.subj.p1.mf.sg.min	prpers
am	vbser.pres.p1.sg	be
?	sent	?
</s>
<s>
And	cnjcoo	and
Peter	np.ant.m.sg	Peter
answereth	unknown	answereth
and	cnjcoo	and
saith	vblex.pres.p3.sg	say
unto	pr	unto
him	prn.obj.p3.m.sg	him
,	cm	,
Thou	prn.subj.p2.mf.sg	thou
art	vbser.pres.p2.sg	be
the	det.def.sp	the
Christ	np.ant.m.sg	Christ
.	sent	.
</s>
</v>
<v at="8:30">
<s>
And	cnjcoo	and
he	prn.subj.p3.m.sg	he
charged	vblex.past	charge
them	prn.obj.p3.mf.pl	them
that	cnjsub	that
they	prn.subj.p3.mf.pl	they
should	vbmod.past	shall
tell	vblex.inf	tell
no	det.ind.sp	no
man	n.sg	man
of	pr	of
him	prn.obj.p3.m.sg	him
.	sent	.
</s>
</v>
<v at="8:31">
<s>
And	cnjcoo	and
he	prn.subj.p3.m.sg	he
began	vblex.past	begin
to	pr	to
teach	vblex.inf	teach
them	prn.obj.p3.mf.pl	them
,	cm	,
that	cnjsub	that
the	det.def.sp	the
Son	n.sg	son
of	pr	of
man	n.sg	man
must	vbmod.pres	must
suffer	vblex.inf	suffer
many	det.qnt.pl	many
things	n.pl	thing
,	cm	,
and	cnjcoo	and
be	vbser.inf	be
rejected	vblex.pp	reject
of	pr	of
the	det.def.sp	the
elders	n.pl	elder
,	cm	,
and	cnjcoo	and
of	pr	of
the	det.def.sp	the
chief	n.sg	chief
priests	n.pl	priest
,	cm	,
and	cnjcoo	and
scribes	n.pl	scribe
,	cm	,
and	cnjcoo	and
be	vbser.inf	be
killed	vblex.pp	kill
,	cm	,
and	cnjcoo	and
after	pr	after
three	num.pl	three
days	n.pl	day
rise	n.sg	rise
again	adv	again
.	sent	.
</s>
</v>
<v at="8:32">
<s>
And	cnjcoo	and
he	prn.subj.p3.m.sg	he
spake	vblex.past	speak
that	det.dem.sg	that
saying	n.sg	saying
openly	adv	openly
.	sent	.
</s>
<s>
And	cnjcoo	and
Peter	np.ant.m.sg	Peter
took	vblex.past	take
him	prn.obj.p3.m.sg	him
,	cm	,
and	cnjcoo	and
began	vblex.past	begin
to	pr	to
rebuke	n.sg	rebuke
him	prn.obj.p3.m.sg	him
.	sent	.
</s>
</v>
<v at="8:33">
<s>
But	cnjcoo	but
when	cnjadv	when
he	prn.subj.p3.m.sg	he
had	vbhaver.past	have
turned	vblex.pp	turn
about	adv	about
and	cnjcoo	and
looked	vblex.past	look
on	pr	on
his	adj.pos.pred	his
disciples	n.pl	disciple
,	cm	,
he	prn.subj.p3.m.sg	he
rebuked	unknown	rebuked
Peter	np.ant.m.sg	Peter
,	cm	,
saying	vblex.pprs	say
,	cm	,
Get	vblex.imp	get
thee	prn.obj.p2.mf.sg	thou
behind	pr	behind
me	prn.obj.p1.mf.sg	me
,	cm	,
Satan	unknown	Satan
:	sent	:
</s>
<s>
for	pr	for
thou	prn.subj.p2.mf.sg	thou
savourest	unknown	savourest
not	adv	not
the	det.def.sp	the
things	n.pl	thing
that	prn.rel.an.mf.sp	that
be	vbser.inf	be
of	pr	of
God	n.sg	god
,	cm	,
but	cnjcoo	but
the	det.def.sp	the
things	n.pl	thing
that	prn.dem.mf.sg	that
be	vbser.inf	be
of	pr	of
men	n.pl	man
.	sent	.
</s>
</v>
<v at="8:34">
<s>
And	cnjcoo	and
when	cnjadv	when
he	prn.subj.p3.m.sg	he
had	vbhaver.past	have
called	vblex.pp	call
the	det.def.sp	the
people	n.pl	person
unto	pr	unto
him	prn.obj.p3.m.sg	him
with	pr	with
his	adj.pos.pred	his
disciples	n.pl	disciple
also	adv	also
,	cm	,
he	prn.subj.p3.m.sg	he
said	vblex.past	say
unto	pr	unto
them	prn.obj.p3.mf.pl	them
,	cm	,
Whosoever	prn.rel	whosoever
will	vbmod.pres	will
come	vblex.inf	come
after	pr	after
me	prn.obj.p1.mf.sg	me
,	cm	,
let	vblex.imp	let
him	prn.obj.p3.m.sg	him
deny	vblex.pres	deny
himself	prn.ref.p3.m.sg	himself
,	cm	,
and	cnjcoo	and
take	vblex.pres	take
up	pr	up
his	det.pos.sp	his
cross	n.sg	cross
,	cm	,
and	cnjcoo	and
follow	vblex.pres	follow
me	prn.obj.p1.mf.sg	me
.	sent	.
</s>
</v>
<v at="8:35">
<s>
For	pr	for
whosoever	prn.rel	whosoever
will	vbmod.pres	will
save	vblex.inf	save
his	det.pos.sp	his
life	n.sg	life
shall	vbmod.pres	shall
lose	vblex.inf	lose
it	prn.obj.p3.nt.sg	it
;	sent	;
</s>
<s>
but	cnjcoo	but
whosoever	prn.rel	whosoever
shall	vbmod.pres	shall
lose	vblex.inf	lose
his	det.pos.sp	his
life	n.sg	life
for	pr	for
my	det.pos.sp	my
sake	n.sg	sake
and	cnjcoo	and
the	det.def.sp	the
gospel	n.sg	gospel
's	gen	's
,	cm	,
the same	adv	the same
shall	vbmod.pres	shall
save	vblex.inf	save
it	prn.obj.p3.nt.sg	it
.	sent	.
</s>
</v>
<v at="8:36">
<s>
For	pr	for
what	prn.rel.nn.mf.sg	what
shall	vbmod.pres	shall
it	prn.obj.p3.nt.sg	it
profit	n.sg	profit
a	det.ind.sg	a
man	n.sg	man
,	cm	,
if	cnjsub	if
he	prn.subj.p3.m.sg	he
shall	vbmod.pres	shall
gain	vblex.inf	gain
the	det.def.sp	the
whole	adj	whole
world	n.sg	world
,	cm	,
and	cnjcoo	and
lose	vblex.inf	lose
his	det.pos.sp	his
own	adj	own
soul	n.sg	soul
?	sent	?
</s>
</v>
<v at="8:37">
<s>
Or	cnjcoo	or
what	prn.rel.nn.mf.sg	what
shall	vbmod.pres	shall
a	det.ind.sg	a
man	n.sg	man
give	vblex.pres	give
in exchange for	pr	in exchange for
his	det.pos.sp	his
soul	n.sg	soul
?	sent	?
</s>
</v>
<v at="8:38">
<s>
Whosoever	prn.rel	whosoever
therefore	cnjadv	therefore
shall	vbmod.pres	shall
be	vbser.inf	be
ashamed	adj	ashamed
of	pr	of
me	prn.obj.p1.mf.sg	me
and	cnjcoo	and
of	pr	of
my	det.pos.sp	my
words	n.pl	word
in	pr	in
this	prn.dem.mf.sg	this
adulterous	adj	adulterous
and	cnjcoo	and
sinful	unknown	sinful
generation	n.sg	generation
;	sent	;
</s>
<s>
of	pr	of
him	prn.obj.p3.m.sg	him
also	adv	also
shall	vbmod.pres	shall
the	det.def.sp	the
Son	n.sg	son
of	pr	of
man	n.sg	man
be	vbser.inf	be
ashamed	adj	ashamed
,	cm	,
when	cnjadv	when
he	prn.subj.p3.m.sg	he
cometh	vblex.pres.p3.sg	come
in	pr	in
the	det.def.sp	the
glory	n.sg	glory
of	pr	of
his	det.pos.sp	his
Father	n.sg	father
with	pr	with
the	det.def.sp	the
holy	adj.sint	holy
angels	n.pl	angel
.	sent	.
</s>
</v>
<v at="9:1">
<s>
And	cnjcoo	and
he	prn.subj.p3.m.sg	he
said	vblex.past	say
unto	pr	unto
them	prn.obj.p3.mf.pl	them
,	cm	,
Verily	adv	verily
I	prn.subj.p1.mf.sg.min	prpers
say	vblex.pres	say
unto	pr	unto
you	prn.obj.p2.mf.sp	you
,	cm	,
That	cnjsub	that
there	adv	there
be	vbser.inf	be
some	prn.ind.mf.pl	some
of	pr	of
them	prn.obj.p3.mf.pl	them
that	det.dem.sg	that
stand	n.sg	stand
here	adv	here
,	cm	,
which	prn.itg.mf.sp	which
shall	vbmod.pres	shall
not	adv	not
taste	vblex.inf	taste
of	pr	of
death	n.sg	death
,	cm	,
till	n.sg	till
they	prn.subj.p3.mf.pl	they
have	vbhaver.pres	have
seen	vblex.pp	see
the	det.def.sp	the
kingdom	n.sg	kingdom
of	pr	of
God	n.sg	god
come	vblex.pp	come
with	pr	with
power	n.sg	power
.	sent	.
</s>
</v>
<v at="9:2">
<s>
And	cnjcoo	and
after	pr	after
six	num.pl	six
days	n.pl	day
Jesus	np.ant.m.sg	Jesus
taketh	vblex.pres.p3.sg	take
with	pr	with
him	prn.obj.p3.m.sg	him
Peter	np.ant.m.sg	Peter
,	cm	,
and	cnjcoo	and
James	np.cog.sg	James
,	cm	,
and	cnjcoo	and
John	np.ant.m.sg	John
,	cm	,
and	cnjcoo	and
leadeth	unknown	leadeth
them	prn.obj.p3.mf.pl	them
up	adv	up
into	pr	into
an	det.ind.sg	a
high	adj.sint	high
mountain	n.sg	mountain
apart	adv	apart
by	pr	by
themselves	prn.ref.p3.mf.pl	themselves
:	sent	:
</s>
<s>
and	cnjcoo	and
he	prn.subj.p3.m.sg	he
was	vbser.past.p1.sg	be
transfigured	unknown	transfigured
before	pr	before
them	prn.obj.p3.mf.pl	them
.	sent	.
</s>
</v>
<v at="9:3">
<s>
And	cnjcoo	and
his	det.pos.sp	his
raiment	unknown	raiment
became	vblex.past	become
shining	vblex.ger	shine
,	cm	,
exceeding	vblex.pprs	exceed
white	adj.sint	white
as	pr	as
snow	n.sg	snow
;	sent	;
</s>
<s>
so	cnjadv	so
as	preadv	as
no	adv	no
fuller	adj.sint.comp	full
on	pr	on
earth	n.sg	earth
can	vbmod.pres	can
white	adj.sint	white
them	prn.obj.p3.mf.pl	them
.	sent	.
</s>
</v>
<v at="9:4">
<s>
And	cnjcoo	and
there	adv	there
appeared	vblex.past	appear
unto	pr	unto
them	prn.obj.p3.mf.pl	them
Elias	np.ant.m.sg	Elias
with	pr	with
Moses	np.cog.sg	Moses
:	sent	:
</s>
<s>
and	cnjcoo	and
they	prn.subj.p3.mf.pl	they
were	vbser.past	be
talking	vblex.ger	talk
with	pr	with
Jesus	np.ant.m.sg	Jesus
.	sent	.
</s>
</v>
<v at="9:5">
<s>
And	cnjcoo	and
Peter	np.ant.m.sg	Peter
answered	vblex.past	answer
and	cnjcoo	and
said	vblex.past	say
to	pr	to
Jesus	np.ant.m.sg	Jesus
,	cm	,
Master	n.sg	master
,	cm	,
it	prn.subj.p3.nt.sg	it
is	vbser.pres.p3.sg	be
good	n.sg	good
for	pr	for
us	prn.obj.p1.mf.pl	us
to	pr	to
be	vbser.inf	be
here	adv	here
:	sent	:
</s>
<s>
and	cnjcoo	and
let	vblex.past	let
us	prn.obj.p1.mf.pl	us
make	vblex.inf	make
three	num.pl	three
tabernacles	unknown	tabernacles
;	sent	;
</s>
<s>
one	prn.dem.mf.sg	one
for	pr	for
thee	prn.obj.p2.mf.sg	thou
,	cm	,
and	cnjcoo	and
one	num.sg	one
for	pr	for
Moses	np.ant.m.sg	Moses
,	cm	,
and	cnjcoo	and
one	num.sg	one
for	pr	for
Elias	np.ant.m.sg	Elias
.	sent	.
</s>
</v>
<v at="9:6">
<s>
For	pr	for
he	prn.subj.p3.m.sg	he
wist	unknown	wist
not	adv	not
what	prn.rel.nn.mf.sg	what
to	pr	to
say	vblex.inf	say
;	sent	;
</s>
<s>
for	pr	for
they	prn.subj.p3.mf.pl	they
were	vbser.past	be
sore	adj.sint	sore
afraid	adj	afraid
.	sent	.
</s>
</v>
<v at="9:7">
<s>
And	cnjcoo	and
there	adv	there
was	vbser.past.p3.sg	be
a	det.ind.sg	a
cloud	n.sg	cloud
that	prn.dem.mf.sg	that
overshadowed	vblex.past	overshadow
them	prn.obj.p3.mf.pl	them
:	sent	:
</s>
<s>
and	cnjcoo	and
a	det.ind.sg	a
voice	n.sg	voice
came out	vblex.past	come out
of	pr	of
the	det.def.sp	the
cloud	n.sg	cloud
,	cm	,
saying	vblex.pprs	say
,	cm	,
This	prn.dem.mf.sg	this
is	vbser.pres.p3.sg	be
my	det.pos.sp	my
beloved	adj	beloved
Son	n.sg	son
:	sent	:
</s>
<s>
hear	vblex.imp	hear
him	prn.obj.p3.m.sg	him
.	sent	.
</s>
</v>
<v at="9:8">
<s>
And	cnjcoo	and
suddenly	adv	suddenly
,	cm	,
when	cnjadv	when
they	prn.subj.p3.mf.pl	they
had	vbhaver.past	have
looked	vblex.pp	look
round	pr	round
about	adv	about
,	cm	,
they	prn.subj.p3.mf.pl	they
saw	vblex.past	see
no	det.ind.sp	no
man	n.sg	man
any more	adv	any more
,	cm	,
save	vblex.imp	save
Jesus	np.ant.m.sg	Jesus
only	adj	only
with	pr	with
themselves	prn.ref.p3.mf.pl	themselves
.	sent	.
</s>
</v>
<v at="9:9">
<s>
And	cnjcoo	and
as	cnjadv	as
they	prn.subj.p3.mf.pl	they
came	vblex.past	come
down	adv	down
from	pr	from
the	det.def.sp	the
mountain	n.sg	mountain
,	cm	,
he	prn.subj.p3.m.sg	he
charged	vblex.past	charge
them	prn.obj.p3.mf.pl	them
that	cnjsub	that
they	prn.subj.p3.mf.pl	they
should	vbmod.past	shall
tell	vblex.inf	tell
no	det.ind.sp	no
man	n.sg	man
what	det.itg.sp	what
things	n.pl	thing
they	prn.subj.p3.mf.pl	they
had	vbhaver.past	have
seen	vblex.pp	see
,	cm	,
till	vblex.imp	till
the	det.def.sp	the
Son	n.sg	son
of	pr	of
man	n.sg	man
were	vbser.past	be
risen	vblex.pp	rise
from	pr	from
the	det.def.sp	the
dead	adj	dead
.	sent	.
</s>
</v>
<v at="9:10">
<s>
And	cnjcoo	and
they	prn.subj.p3.mf.pl	they
kept	vblex.past	keep
that	cnjsub	that
saying	vblex.subs	say
with	pr	with
themselves	prn.ref.p3.mf.pl	themselves
,	cm	,
questioning	vblex.pprs	question
one	num.sg	one
with	pr	with
another	prn.ind.mf.sg	another
what	prn.rel.nn.mf.sg	what
the	det.def.sp	the
rising	vblex.subs	rise
from	pr	from
the	det.def.sp	the
dead	adj	dead
should	vbmod.past	shall
mean	vblex.inf	mean
.	sent	.
</s>
</v>
<v at="9:11">
<s>
And	cnjcoo	and
they	prn.subj.p3.mf.pl	they
asked	vblex.past	ask
him	prn.obj.p3.m.sg	him
,	cm	,
saying	vblex.ger	say
,	cm	,
Why	adv.itg	why
say	vblex.pres	say
the	det.def.sp	the
scribes	n.pl	scribe
that	prn.dem.mf.sg	that
Elias	np.ant.m.sg	Elias
must	vbmod.pres	must
first	adj.ord	first
come	vblex.inf	come
?	sent	?
</s>
</v>
<v at="9:12">
<s>
And	cnjcoo	and
he	prn.subj.p3.m.sg	he
answered	vblex.past	answer
and	cnjcoo	and
told	vblex.past	tell
them	prn.obj.p3.mf.pl	them
,	cm	,
Elias	np.ant.m.sg	Elias
verily	adv	verily
cometh	vblex.pres.p3.sg	come
first	adv	first
,	cm	,
and	cnjcoo	and
restoreth	unknown	restoreth
all	prn.qnt.mf.sp	all
things	n.pl	thing
;	sent	;
</s>
<s>
and	cnjcoo	and
how	preadv	how
it	prn.subj.p3.nt.sg	it
is	vbser.pres.p3.sg	be
written	vblex.pp	write
of	pr	of
the	det.def.sp	the
Son	n.sg	son
of	pr	of
man	n.sg	man
,	cm	,
that	prn.rel.an.mf.sp	that
he	prn.subj.p3.m.sg	he
must	vbmod.pres	must
suffer	vblex.inf	suffer
many	det.qnt.pl	many
things	n.pl	thing
,	cm	,
and	cnjcoo	and
be	vbser.inf	be
set	vblex.pp	set
at	pr	at
nought	unknown	nought
.	sent	.
</s>
</v>
<v at="9:13">
<s>
But	cnjcoo	but
I	prn.subj.p1.mf.sg.min	prpers
say	vblex.pres	say
unto	pr	unto
you	prn.obj.p2.mf.sp	you
,	cm	,
That	cnjsub	that
Elias	np.ant.m.sg	Elias
is	vbser.pres.p3.sg	be
indeed	adv	indeed
come	vblex.pp	come
,	cm	,
and	cnjcoo	and
they	prn.subj.p3.mf.pl	they
have	vbhaver.inf	have
done	vblex.pp	do
unto	pr	unto
him	prn.obj.p3.m.sg	him
whatsoever	prn.rel	whatsoever
they	prn.subj.p3.mf.pl	they
listed	vblex.past	list
,	cm	,
as	cnjadv	as
it	prn.subj.p3.nt.sg	it
is	vbser.pres.p3.sg	be
written	vblex.pp	write
of	pr	of
him	prn.obj.p3.m.sg	him
.	sent	.
</s>
</v>
<v at="9:14">
<s>
And	cnjcoo	and
when	cnjadv	when
he	prn.subj.p3.m.sg	he
came	vblex.past	come
to	pr	to
his	adj.pos.pred	his
disciples	n.pl	disciple
,	cm	,
he	prn.subj.p3.m.sg	he
saw	vblex.past	see
a	det.ind.sg	a
great	adj.sint	great
multitude	n.sg	multitude
about	pr	about
them	prn.obj.p3.mf.pl	them
,	cm	,
and	cnjcoo	and
the	det.def.sp	the
scribes	n.pl	scribe
questioning	vblex.subs	question
with	pr	with
them	prn.obj.p3.mf.pl	them
.	sent	.
</s>
</v>
<v at="9:15">
<s>
And	cnjcoo	and
straightway	adv	straightway
all	predet.sp	all
the	det.def.sp	the
people	n.pl	person
,	cm	,
when	cnjadv	when
they	prn.subj.p3.mf.pl	they
beheld	unknown	beheld
him	prn.obj.p3.m.sg	him
,	cm	,
were	vbser.past	be
greatly	adv	greatly
amazed	vblex.pp	amaze
,	cm	,
and	cnjcoo	and
running	vblex.subs	run
to	pr	to
him	prn.obj.p3.m.sg	him
saluted	unknown	saluted
him	prn.obj.p3.m.sg	him
.	sent	.
</s>
</v>
<v at="9:16">
<s>
And	cnjcoo	and
he	prn.subj.p3.m.sg	he
asked	vblex.past	ask
the	det.def.sp	the
scribes	n.pl	scribe
,	cm	,
What	det.itg.sp	what
question	n.sg	question
ye	prn.subj.p2.mf.pl	ye
with	pr	with
them	prn.obj.p3.mf.pl	them
?	sent	?
</s>
</v>
<v at="9:17">
<s>
And	cnjcoo	and
one	prn.dem.mf.sg	one
of	pr	of
the	det.def.sp	the
multitude	n.sg	multitude
answered	vblex.past	answer
and	cnjcoo	and
said	vblex.past	say
,	cm	,
Master	adj	master
,	cm	,
I	prn.subj.p1.mf.sg.min	prpers
have	vbhaver.inf	have
brought	vblex.pp	bring
unto	pr	unto
thee	prn.obj.p2.mf.sg	thou
my	det.pos.sp	my
son	n.sg	son
,	cm	,
which	prn.itg.mf.sp	which
hath	vbhaver.pres.p3.sg	have
a	det.ind.sg	a
dumb	adj.sint	dumb
spirit	n.sg	spirit
;	sent	;
</s>
</v>
<v at="9:18">
<s>
And	cnjcoo	and
wheresoever	unknown	wheresoever
he	prn.subj.p3.m.sg	he
taketh	vblex.pres.p3.sg	take
him	prn.obj.p3.m.sg	him
,	cm	,
he	prn.subj.p3.m.sg	he
teareth	unknown	teareth
him	prn.obj.p3.m.sg	him
:	sent	:
</s>
<s>
and	cnjcoo	and
he	prn.subj.p3.m.sg	he
foameth	unknown	foameth
,	cm	,
and	cnjcoo	and
gnasheth	unknown	gnasheth
with	pr	with
his	adj.pos.pred	his
teeth	n.pl	tooth
,	cm	,
and	cnjcoo	and
pineth	unknown	pineth
away	adv	away
:	sent	:
</s>
<s>
and	cnjcoo	and
I	prn.subj.p1.mf.sg.min	prpers
spake	vblex.past	speak
to	pr	to
thy	det.pos.sp	thy
disciples	n.pl	disciple
that	prn.rel.an.mf.sp	that
they	prn.subj.p3.mf.pl	they
should	vbmod.past	shall
cast	vblex.inf	cast
him	prn.obj.p3.m.sg	him
out	adv	out
;	sent	;
</s>
<s>
and	cnjcoo	and
they	prn.subj.p3.mf.pl	they
could	vbmod.past	can
not	adv	not
.	sent	.
</s>
</v>
<v at="9:19">
<s>
He	prn.subj.p3.m.sg	prpers
answereth	unknown	answereth
him	prn.obj.p3.m.sg	him
,	cm	,
and	cnjcoo	and
saith	vblex.pres.p3.sg	say
,	cm	,
O	unknown	O
faithless	adj	faithless
generation	n.sg	generation
,	cm	,
how long	adv	how long
shall	vbmod.pres	shall
I	prn.subj.p1.mf.sg.min	prpers
be	vbser.inf	be
with	pr	with
you	prn.obj.p2.mf.sp	you
?	sent	?
</s>
<s>
how long	adv	how long
shall	vbmod.pres	shall
I	prn.subj.p1.mf.sg.min	prpers
suffer	vblex.inf	suffer
you	prn.obj.p2.mf.sp	you
?	sent	?
</s>
<s>
bring	vblex.imp	bring
him	prn.obj.p3.m.sg	him
unto	pr	unto
me	prn.obj.p1.mf.sg	me
.	sent	.
</s>
</v>
<v at="9:20">
<s>
And	cnjcoo	and
they	prn.subj.p3.mf.pl	they
brought	vblex.past	bring
him	prn.obj.p3.m.sg	him
unto	pr	unto
him	prn.obj.p3.m.sg	him
:	sent	:
</s>
<s>
and	cnjcoo	and
when	cnjadv	when
he	prn.subj.p3.m.sg	he
saw	vblex.past	see
him	prn.obj.p3.m.sg	him
,	cm	,
straightway	adv	straightway
the	det.def.sp	the
spirit	n.sg	spirit
tare	unknown	tare
him	prn.obj.p3.m.sg	him
;	sent	;
</s>
<s>
and	cnjcoo	and
he	prn.subj.p3.m.sg	he
fell	vblex.past	fall
on	pr	on
the	det.def.sp	the
ground	n.sg	ground
,	cm	,
and	cnjcoo	and
wallowed	unknown	wallowed
foaming	vblex.subs	foam
.	sent	.
</s>
</v>
<v at="9:21">
<s>
And	cnjcoo	and
he	prn.subj.p3.m.sg	he
asked	vblex.past	ask
his	det.pos.sp	his
father	n.sg	father
,	cm	,
How long	adv	how long
is	vbser.pres.p3.sg	be
it	prn.obj.p3.nt.sg	it
ago	adv	ago
since	pr	since
this	prn.dem.mf.sg	this
came	vblex.past	come
unto	pr	unto
him	prn.obj.p3.m.sg	him
?	sent	?
</s>
<s>
And	cnjcoo	and
he	prn.subj.p3.m.sg	he
said	vblex.past	say
,	cm	,
Of	pr	of
a	det.ind.sg	a
child	n.sg	child
.	sent	.
</s>
</v>
<v at="9:22">
<s>
And	cnjcoo	and
ofttimes	unknown	ofttimes
it	prn.subj.p3.nt.sg	it
hath	vbhaver.pres.p3.sg	have
cast	vblex.past	cast
him	prn.obj.p3.m.sg	him
into	pr	into
the	det.def.sp	the
fire	n.sg	fire
,	cm	,
and	cnjcoo	and
into	pr	into
the	det.def.sp	the
waters	n.pl	water
,	cm	,
to	pr	to
destroy	vblex.inf	destroy
him	prn.obj.p3.m.sg	him
:	sent	:
</s>
<s>
but	cnjcoo	but
if	cnjsub	if
thou	prn.subj.p2.mf.sg	thou
canst	vbmod.pres	can
do	vblex.inf	do
any	det.ind.sp	any
thing	n.sg	thing
,	cm	,
have	vblex.imp	have
compassion	n.sg	compassion
on	pr	on
us	prn.obj.p1.mf.pl	us
,	cm	,
and	cnjcoo	and
help	vblex.inf	help
us	prn.obj.p1.mf.pl	us
.	sent	.
</s>
</v>
<v at="9:23">
<s>
Jesus	np.ant.m.sg	Jesus
said	vblex.past	say
unto	pr	unto
him	prn.obj.p3.m.sg	him
,	cm	,
If	cnjsub	if
thou	prn.subj.p2.mf.sg	thou
canst	vbmod.pres	can
believe	vblex.inf	believe
,	cm	,
all	prn.qnt.mf.sp	all
things	n.pl	thing
are	vbser.pres	be
possible	adj	possible
to	pr	to
him	prn.obj.p3.m.sg	him
that	cnjsub	that
believeth	unknown	believeth
.	sent	.
</s>
</v>
<v at="9:24">
<s>
And	cnjcoo	and
straightway	adv	straightway
the	det.def.sp	the
father	n.sg	father
of	pr	of
the	det.def.sp	the
child	n.sg	child
cried	vblex.past	cry
out	adv	out
,	cm	,
and	cnjcoo	and
said	vblex.past	say
with	pr	with
tears	n.pl	tear
,	cm	,
Lord	n.sg	lord
,	cm	,
I	prn.subj.p1.mf.sg.min	prpers
believe	vblex.pres	believe
;	sent	;
</s>
<s>
help	vblex.inf	help
thou	prn.subj.p2.mf.sg	thou
mine	vblex.inf	mine
unbelief	unknown	unbelief
.	sent	.
</s>
</v>
<v at="9:25">
<s>
When	adv.itg	when
Jesus	np.ant.m.sg	Jesus
saw	vblex.past	see
that	cnjsub	that
the	det.def.sp	the
people	n.pl	person
came	vblex.past	come
running	vblex.pprs	run
together	adj	together
,	cm	,
he	prn.subj.p3.m.sg	he
rebuked	unknown	rebuked
the	det.def.sp	the
foul	adj.sint	foul
spirit	n.sg	spirit
,	cm	,
saying	vblex.pprs	say
unto	pr	unto
him	prn.obj.p3.m.sg	him
,	cm	,
Thou	prn.subj.p2.mf.sg	thou
dumb	adj.sint	dumb
and	cnjcoo	and
deaf	adj.sint	deaf
spirit	n.sg	spirit
,	cm	,
I	prn.subj.p1.mf.sg.min	prpers
charge	vblex.pres	charge
thee	prn.obj.p2.mf.sg	thou
,	cm	,
come out	vblex.imp	come out
of	pr	of
him	prn.obj.p3.m.sg	him
,	cm	,
and	cnjcoo	and
enter	vblex.pres	enter
no	adv	no
more	preadv	more
into	pr	into
him	prn.obj.p3.m.sg	him
.	sent	.
</s>
</v>
<v at="9:26">
<s>
And	cnjcoo	and
the	det.def.sp	the
spirit	n.sg	spirit
cried	vblex.past	cry
,	cm	,
and	cnjcoo	and
rent	vblex.pres	rent
him	prn.obj.p3.m.sg	him
sore	adj.sint	sore
,	cm	,
and	cnjcoo	and
came out	vblex.past	come out
of	pr	of
him	prn.obj.p3.m.sg	him
:	sent	:
</s>
<s>
and	cnjcoo	and
he	prn.subj.p3.m.sg	he
was	vbser.past.p1.sg	be
as	pr	as
one	prn.dem.mf.sg	one
dead	adj	dead
;	sent	;
</s>
<s>
insomuch	unknown	insomuch
that	cnjsub	that
many	prn.ind.mf.pl	many
said	vblex.past	say
,	cm	,
He	prn.subj.p3.m.sg	prpers
is	vbser.pres.p3.sg	be
dead	adj	dead
.	sent	.
</s>
</v>
<v at="9:27">
<s>
But	cnjcoo	but
Jesus	np.ant.m.sg	Jesus
took	vblex.past	take
him	prn.obj.p3.m.sg	him
by	pr	by
the	det.def.sp	the
hand	n.sg	hand
,	cm	,
and	cnjcoo	and
lifted	vblex.past	lift
him	prn.obj.p3.m.sg	him
up	adv	up
;	sent	;
</s>
<s>
and	cnjcoo	and
he	prn.subj.p3.m.sg	he
arose	vblex.past	arise
.	sent	.
</s>
</v>
<v at="9:28">
<s>
And	cnjcoo	and
when	cnjadv	when
he	prn.subj.p3.m.sg	he
was	vbser.past.p1.sg	be
come	vblex.pp	come
into	pr	into
the	det.def.sp	the
house	n.sg	house
,	cm	,
his	adj.pos.pred	his
disciples	n.pl	disciple
asked	vblex.past	ask
him	prn.obj.p3.m.sg	him
privately	adv	privately
,	cm	,
Why	adv.itg	why
could	vbmod.past	can
not	adv	not
we	prn.subj.p1.mf.pl	we
cast	vblex.inf	cast
him	prn.obj.p3.m.sg	him
out	adv	out
?	sent	?
</s>
</v>
<v at="9:29">
<s>
And	cnjcoo	and
he	prn.subj.p3.m.sg	he
said	vblex.past	say
unto	pr	unto
them	prn.obj.p3.mf.pl	them
,	cm	,
This	det.dem.sg	this
kind	n.sg	kind
can	vbmod.pres	can
come	vblex.inf	come
forth	adv	forth
by	pr	by
nothing	prn.ind.mf.sg	nothing
,	cm	,
but	cnjcoo	but
by	pr	by
prayer	n.sg	prayer
and	cnjcoo	and
fasting	unknown	fasting
.	sent	.
</s>
</v>
<v at="9:30">
<s>
And	cnjcoo	and
they	prn.subj.p3.mf.pl	they
departed	vblex.past	depart
thence	adv	thence
,	cm	,
and	cnjcoo	and
passed	vblex.past	pass
through	pr	through
Galilee	unknown	Galilee
;	sent	;
</s>
<s>
and	cnjcoo	and
he	prn.subj.p3.m.sg	he
would	vbmod.past	will
not	adv	not
that	cnjsub	that
any	det.ind.sp	any
man	n.sg	man
should	vbmod.past	shall
know	vblex.inf	know
it	prn.obj.p3.nt.sg	it
.	sent	.
</s>
</v>
<v at="9:31">
<s>
For	pr	for
he	prn.subj.p3.m.sg	he
taught	vblex.past	teach
his	adj.pos.pred	his
disciples	n.pl	disciple
,	cm	,
and	cnjcoo	and
said	vblex.past	say
unto	pr	unto
them	prn.obj.p3.mf.pl	them
,	cm	,
The	det.def.sp	the
Son	n.sg	son
of	pr	of
man	n.sg	man
is	vbser.pres.p3.sg	be
delivered	vblex.pp	deliver
into	pr	into
the	det.def.sp	the
hands	n.pl	hand
of	pr	of
men	n.pl	man
,	cm	,
and	cnjcoo	and
they	prn.subj.p3.mf.pl	they
shall	vbmod.pres	shall
kill	vblex.inf	kill
him	prn.obj.p3.m.sg	him
;	sent	;
</s>
<s>
and	cnjcoo	and
after that	adv	after that
he	prn.subj.p3.m.sg	he
is	vbser.pres.p3.sg	be
killed	vblex.pp	kill
,	cm	,
he	prn.subj.p3.m.sg	he
shall	vbmod.pres	shall
rise	vblex.inf	rise
the	det.def.sp	the
third	adj.ord	third
day	n.sg	day
.	sent	.
</s>
</v>
<v at="9:32">
<s>
But	cnjcoo	but
they	prn.subj.p3.mf.pl	they
understood	vblex.past	understand
not	adv	not
that	det.dem.sg	that
saying	n.sg	saying
,	cm	,
and	cnjcoo	and
were afraid	vblex.past.p2.sg	be afraid
to	pr	to
ask	vblex.inf	ask
him	prn.obj.p3.m.sg	him
.	sent	.
</s>
</v>
<v at="9:33">
<s>
And	cnjcoo	and
he	prn.subj.p3.m.sg	he
came	vblex.past	come
to	pr	to
Capernaum	unknown	Capernaum
:	sent	:
</s>
<s>
and	cnjcoo	and
being	vbser.subs	be
in	pr	in
the	det.def.sp	the
house	n.sg	house
he	prn.subj.p3.m.sg	he
asked	vblex.past	ask
them	prn.obj.p3.mf.pl	them
,	cm	,
What	prn.rel.nn.mf.sg	what
was	vbser.past.p1.sg	be
it	prn.obj.p3.nt.sg	it
that	cnjsub	that
ye	prn.subj.p2.mf.pl	ye
disputed	vblex.pp	dispute
among	pr	among
yourselves	prn.ref.p2.mf.pl	yourselves
by the way	adv	by the way
?	sent	?
</s>
</v>
<v at="9:34">
<s>
But	cnjcoo	but
they	prn.subj.p3.mf.pl	they
held	vblex.past	hold
their	det.pos.sp	their
peace	n.sg	peace
:	sent	:
</s>
<s>
for	pr	for
by the way	adv	by the way
they	prn.subj.p3.mf.pl	they
had	vbhaver.past	have
disputed	vblex.pp	dispute
among	pr	among
themselves	prn.ref.p3.mf.pl	themselves
,	cm	,
who	prn.rel.an.mf.sp	who
should	vbmod.past	shall
be	vbser.inf	be
the	det.def.sp	the
greatest	adj.sint.sup	great
.	sent	.
</s>
</v>
<v at="9:35">
<s>
And	cnjcoo	and
he	prn.subj.p3.m.sg	he
sat down	vblex.past	sit down
,	cm	,
and	cnjcoo	and
called	vblex.past	call
the	det.def.sp	the
twelve	num.pl	twelve
,	cm	,
and	cnjcoo	and
saith	vblex.pres.p3.sg	say
unto	pr	unto
them	prn.obj.p3.mf.pl	them
,	cm	,
If	cnjsub	if
any	det.ind.sp	any
man	n.sg	man
desire	n.sg	desire
to	pr	to
be	vbser.inf	be
first	adj.ord	first
,	cm	,
the same	adv	the same
shall	vbmod.pres	shall
be	vbser.inf	be
last	adj.ord	last
of	pr	of
all	prn.qnt.mf.sp	all
,	cm	,
and	cnjcoo	and
servant	n.sg	servant
of	pr	of
all	prn.qnt.mf.sp	all
.	sent	.
</s>
</v>
<v at="9:36">
<s>
And	cnjcoo	and
he	prn.subj.p3.m.sg	he
took	vblex.past	take
a	det.ind.sg	a
child	n.sg	child
,	cm	,
and	cnjcoo	and
set	vblex.past	set
him	prn.obj.p3.m.sg	him
in	adv	in
the	det.def.sp	the
midst	unknown	midst
of	pr	of
them	prn.obj.p3.mf.pl	them
:	sent	:
</s>
<s>
and	cnjcoo	and
when	cnjadv	when
he	prn.subj.p3.m.sg	he
had	vbhaver.past	have
taken	vblex.pp	take
him	prn.obj.p3.m.sg	him
in	pr	in
his	adj.pos.pred	his
arms	n.pl	arm
,	cm	,
he	prn.subj.p3.m.sg	he
said	vblex.past	say
unto	pr	unto
them	prn.obj.p3.mf.pl	them
,	cm	,
</v>
<v at="9:37">
Whosoever	prn.rel	whosoever
shall	vbmod.pres	shall
receive	vblex.inf	receive
one	prn.dem.mf.sg	one
of	pr	of
such	det.ind.sp	such
children	n.pl	child
in	pr	in
my	det.pos.sp	my
name	n.sg	name
,	cm	,
receiveth	unknown	receiveth
me	prn.obj.p1.mf.sg	me
:	sent	:
</s>
<s>
and	cnjcoo	and
whosoever	prn.rel	whosoever
shall	vbmod.pres	shall
receive	vblex.inf	receive
me	prn.obj.p1.mf.sg	me
,	cm	,
receiveth	unknown	receiveth
not	adv	not
me	prn.obj.p1.mf.sg	me
,	cm	,
but	cnjcoo	but
him	prn.obj.p3.m.sg	him
that	cnjsub	that
sent	vblex.past	send
me	prn.obj.p1.mf.sg	me
.	sent	.
</s>
</v>
<v at="9:38">
<s>
And	cnjcoo	and
John	np.cog.sg	John
answered	vblex.past	answer
him	prn.obj.p3.m.sg	him
,	cm	,
saying	vblex.ger	say
,	cm	,
Master	n.sg	master
,	cm	,
we	prn.subj.p1.mf.pl	we
saw	vblex.past	see
one	num.sg	one
casting	vblex.subs	cast
out	pr	out
devils	n.pl	devil
in	pr	in
thy	det.pos.sp	thy
name	n.sg	name
,	cm	,
and	cnjcoo	and
he	prn.subj.p3.m.sg	he
followeth	unknown	followeth
not	adv	not
us	prn.obj.p1.mf.pl	us
:	sent	:
</s>
<s>
and	cnjcoo	and
we	prn.subj.p1.mf.pl	we
forbad	vblex.past	forbid
him	prn.obj.p3.m.sg	him
,	cm	,
because	cnjadv	because
he	prn.subj.p3.m.sg	he
followeth	unknown	followeth
not	adv	not
us	prn.obj.p1.mf.pl	us
.	sent	.
</s>
</v>
<v at="9:39">
<s>
But	cnjcoo	but
Jesus	np.ant.m.sg	Jesus
said	vblex.past	say
,	cm	,
Forbid	vblex.imp	forbid
him	prn.obj.p3.m.sg	him
not	adv	not
:	sent	:
</s>
<s>
for	pr	for
there	adv	there
is	vbser.pres.p3.sg	be
no	det.ind.sp	no
man	n.sg	man
which	prn.itg.mf.sp	which
shall	vbmod.pres	shall
do	vblex.inf	do
a	det.ind.sg	a
miracle	n.sg	miracle
in	pr	in
my	det.pos.sp	my
name	n.sg	name
,	cm	,
that	prn.rel.an.mf.sp	that
can	vbmod.pres	can
lightly	adv	lightly
speak	vblex.inf	speak
evil	n.sg	evil
of	pr	of
me	prn.obj.p1.mf.sg	me
.	sent	.
</s>
</v>
<v at="9:40">
<s>
For	pr	for
he	prn.subj.p3.m.sg	he
that	cnjsub	that
is	vbser.pres.p3.sg	be
not	adv	not
against	pr	against
us	prn.obj.p1.mf.pl	us
is	vbser.pres.p3.sg	be
on our part	adv	on our part
.	sent	.
</s>
</v>
<v at="9:41">
<s>
For	pr	for
whosoever	prn.rel	whosoever
shall	vbmod.pres	shall
give	vblex.inf	give
you	prn.obj.p2.mf.sp	you
a	det.ind.sg	a
cup	n.sg	cup
of	pr	of
water	n.sg	water
to	pr	to
drink	vblex.inf	drink
in	pr	in
my	det.pos.sp	my
name	n.sg	name
,	cm	,
because	cnjadv	because
ye	prn.subj.p2.mf.pl	ye
belong	vblex.inf	belong
to	pr	to
Christ	np.ant.m.sg	Christ
,	cm	,
verily	adv	verily
I	prn.subj.p1.mf.sg.min	prpers
say	vblex.pres	say
unto	pr	unto
you	prn.obj.p2.mf.sp	you
,	cm	,
he	prn.subj.p3.m.sg	he
shall	vbmod.pres	shall
not	adv	not
lose	vblex.inf	lose
his	det.pos.sp	his
reward	n.sg	reward
.	sent	.
</s>
</v>
<v at="9:42">
<s>
And	cnjcoo	and
whosoever	prn.rel	whosoever
shall	vbmod.pres	shall
offend	vblex.inf	offend
one	prn.dem.mf.sg	one
of	pr	of
these	prn.dem.mf.pl	this
little	adj	little
ones	prn.dem.mf.pl	one
that	prn.rel.an.mf.sp	that
believe	vblex.pres	believe
in	pr	in
me	prn.obj.p1.mf.sg	me
,	cm	,
it	prn.subj.p3.nt.sg	it
is	vbser.pres.p3.sg	be
better	adj.sint.comp	good
for	pr	for
him	prn.obj.p3.m.sg	him
that	cnjsub	that
a	det.ind.sg	a
millstone	unknown	millstone
were	vbser.past	be
hanged	vblex.pp	hang
about	pr	about
his	det.pos.sp	his
neck	n.sg	neck
,	cm	,
and	cnjcoo	and
he	prn.subj.p3.m.sg	he
were	vbser.past	be
cast	vblex.pp	cast
into	pr	into
the	det.def.sp	the
sea	n.sg	sea
.	sent	.
</s>
</v>
<v at="9:43">
<s>
And	cnjcoo	and
if	cnjsub	if
thy	det.pos.sp	thy
hand	n.sg	hand
offend	vblex.pres	offend
thee	prn.obj.p2.mf.sg	thou
,	cm	,
cut	vblex.imp	cut
it	prn.obj.p3.nt.sg	it
off	adv	off
:	sent	:
</s>
<s>
it	prn.subj.p3.nt.sg	it
is	vbser.pres.p3.sg	be
better	adj.sint.comp	good
for	pr	for
thee	prn.obj.p2.mf.sg	thou
to	pr	to
enter	vblex.inf	enter
into	pr	into
life	n.sg	life
maimed	unknown	maimed
,	cm	,
than	cnjsub	than
having	vblex.pprs	have
two	num.pl	two
hands	n.pl	hand
to	pr	to
go	vblex.inf	go
into	pr	into
hell	n.sg	hell
,	cm	,
into	pr	into
the	det.def.sp	the
fire	n.sg	fire
that	cnjsub	that
never	adv	never
shall	vbmod.pres	shall
be	vbser.inf	be
quenched	unknown	quenched
:	sent	:
</s>
</v>
<v at="9:44">
<s>
Where	adv.itg	where
their	det.pos.sp	their
worm	n.sg	worm
dieth	unknown	dieth
not	adv	not
,	cm	,
and	cnjcoo	and
the	det.def.sp	the
fire	n.sg	fire
is	vbser.pres.p3.sg	be
not	adv	not
quenched	unknown	quenched
.	sent	.
</s>
</v>
<v at="9:45">
<s>
And	cnjcoo	and
if	cnjsub	if
thy	det.pos.sp	thy
foot	n.pl	foot
offend	vblex.pres	offend
thee	prn.obj.p2.mf.sg	thou
,	cm	,
cut	vblex.imp	cut
it	prn.obj.p3.nt.sg	it
off	adv	off
:	sent	:
</s>
<s>
it	prn.subj.p3.nt.sg	it
is	vbser.pres.p3.sg	be
better	adj.sint.comp	good
for	pr	for
thee	prn.obj.p2.mf.sg	thou
to	pr	to
enter	vblex.inf	enter
halt	vblex.inf	halt
into	pr	into
life	n.sg	life
,	cm	,
than	cnjsub	than
having	vblex.pprs	have
two	num.pl	two
feet	n.pl	foot
to	pr	to
be	vbser.inf	be
cast	vblex.pp	cast
into	pr	into
hell	n.sg	hell
,	cm	,
into	pr	into
the	det.def.sp	the
fire	n.sg	fire
that	cnjsub	that
never	adv	never
shall	vbmod.pres	shall
be	vbser.inf	be
quenched	unknown	quenched
:	sent	:
</s>
</v>
<v at="9:46">
<s>
Where	adv.itg	where
their	det.pos.sp	their
worm	n.sg	worm
dieth	unknown	dieth
not	adv	not
,	cm	,
and	cnjcoo	and
the	det.def.sp	the
fire	n.sg	fire
is	vbser.pres.p3.sg	be
not	adv	not
quenched	unknown	quenched
.	sent	.
</s>
</v>
<v at="9:47">
<s>
And	cnjcoo	and
if	cnjsub	if
thine	det.pos.sp	thine
eye	n.sg	eye
offend	vblex.pres	offend
thee	prn.obj.p2.mf.sg	thou
,	cm	,
pluck	vblex.imp	pluck
it	prn.obj.p3.nt.sg	it
out	adv	out
:	sent	:
</s>
<s>
it	prn.subj.p3.nt.sg	it
is	vbser.pres.p3.sg	be
better	adj.sint.comp	good
for	pr	for
thee	prn.obj.p2.mf.sg	thou
to	pr	to
enter	vblex.inf	enter
into	pr	into
the	det.def.sp	the
kingdom	n.sg	kingdom
of	pr	of
God	n.sg	god
with	pr	with
one	num.sg	one
eye	n.sg	eye
,	cm	,
than	cnjsub	than
having	vblex.ger	have
two	num.pl	two
eyes	n.pl	eye
to	pr	to
be	vbser.inf	be
cast	vblex.pp	cast
into	pr	into
hell	n.sg	hell
fire	n.sg	fire
:	sent	:
</s>
</v>
<v at="9:48">
<s>
Where	adv.itg	where
their	det.pos.sp	their
worm	n.sg	worm
dieth	unknown	dieth
not	adv	not
,	cm	,
and	cnjcoo	and
the	det.def.sp	the
fire	n.sg	fire
is	vbser.pres.p3.sg	be
not	adv	not
quenched	unknown	quenched
.	sent	.
</s>
</v>
<v at="9:49">
<s>
For	pr	for
every	det.ind.sg	every
one	num.sg	one
shall	vbmod.pres	shall
be	vbser.inf	be
salted	vblex.pp	salt
with	pr	with
fire	n.sg	fire
,	cm	,
and	cnjcoo	and
every	det.ind.sg	every
sacrifice	n.sg	sacrifice
shall	vbmod.pres	shall
be	vbser.inf	be
salted	vblex.pp	salt
with	pr	with
salt	n.sg	salt
.	sent	.
</s>
</v>
<v at="9:50">
<s>
Salt	n.sg	salt
is	vbser.pres.p3.sg	be
good	adj.sint	good
:	sent	:
</s>
<s>
but	cnjcoo	but
if	cnjsub	if
the	det.def.sp	the
salt	n.sg	salt
have	vbhaver.inf	have
lost	vblex.pp	lose
his	det.pos.sp	his
saltness	unknown	saltness
,	cm	,
wherewith	unknown	wherewith
will	vbmod.pres	will
ye	prn.subj.p2.mf.pl	ye
season	vblex.inf	season
it	prn.obj.p3.nt.sg	it
?	sent	?
</s>
<s>
Have	vblex.imp	have
salt	n.sg	salt
in	pr	in
yourselves	prn.ref.p2.mf.pl	yourselves
,	cm	,
and	cnjcoo	and
have	vblex.pres	have
peace	n.sg	peace
one	num.sg	one
with	pr	with
another	prn.ind.mf.sg	another
.	sent	.
</s>
</v>
<v at="10:1">
<s>
And	cnjcoo	and
he	prn.subj.p3.m.sg	he
arose	vblex.past	arise
from	pr	from
thence	adv	thence
,	cm	,
and	cnjcoo	and
cometh	vblex.pres.p3.sg	come
into	pr	into
the	det.def.sp	the
coasts	n.pl	coast
of	pr	of
Judaea	unknown	Judaea
by	pr	by
the	det.def.sp	the
farther	adj.sint.comp	far
side	n.sg	side
of	pr	of
Jordan	np.top.sg	Jordan
:	sent	:
</s>
<s>
and	cnjcoo	and
the	det.def.sp	the
people	n.pl	person
resort	vblex.pres	resort
unto	pr	unto
him	prn.obj.p3.m.sg	him
again	adv	again
;	sent	;
</s>
<s>
and	cnjcoo	and
,	cm	,
as	cnjadv	as
he	prn.subj.p3.m.sg	he
was	vbser.past.p1.sg	be
wont	unknown	wont
,	cm	,
he	prn.subj.p3.m.sg	he
taught	vblex.past	teach
them	prn.obj.p3.mf.pl	them
again	adv	again
.	sent	.
</s>
</v>
<v at="10:2">
<s>
And	cnjcoo	and
the	det.def.sp	the
Pharisees	unknown	Pharisees
came	vblex.past	come
to	pr	to
him	prn.obj.p3.m.sg	him
,	cm	,
and	cnjcoo	and
asked	vblex.past	ask
him	prn.obj.p3.m.sg	him
,	cm	,
Is	vbser.pres.p3.sg	be
it	prn.obj.p3.nt.sg	it
lawful	adj	lawful
for	pr	for
a	det.ind.sg	a
man	n.sg	man
to	pr	to
put	vblex.inf	put
away	adv	away
his	det.pos.sp	his
wife	n.sg	wife
?	sent	?
</s>
<s>
tempting	vblex.pprs	tempt
him	prn.obj.p3.m.sg	him
.	sent	.
</s>
</v>
<v at="10:3">
<s>
And	cnjcoo	and
he	prn.subj.p3.m.sg	he
answered	vblex.past	answer
and	cnjcoo	and
said	vblex.past	say
unto	pr	unto
them	prn.obj.p3.mf.pl	them
,	cm	,
What	prn.rel.nn.mf.sg	what
did	vblex.past	do
Moses	np.cog.sg	Moses
command	vblex.pres	command
you	prn.obj.p2.mf.sp	you
?	sent	?
</s>
</v>
<v at="10:4">
<s>
And	cnjcoo	and
they	prn.subj.p3.mf.pl	they
said	vblex.past	say
,	cm	,
Moses	np.cog.sg	Moses
suffered	vblex.past	suffer
to	pr	to
write	vblex.inf	write
a	det.ind.sg	a
bill	n.sg	bill
of	pr	of
divorcement	unknown	divorcement
,	cm	,
and	cnjcoo	and
to	pr	to
put	vblex.inf	put
her	prn.obj.p3.f.sg	her
away	adv	away
.	sent	.
</s>
</v>
<v at="10:5">
<s>
And	cnjcoo	and
Jesus	np.ant.m.sg	Jesus
answered	vblex.past	answer
and	cnjcoo	and
said	vblex.past	say
unto	pr	unto
them	prn.obj.p3.mf.pl	them
,	cm	,
For	pr	for
the	det.def.sp	the
hardness	n.sg	hardness
of	pr	of
your	det.pos.sp	your
heart	n.sg	heart
he	prn.subj.p3.m.sg	he
wrote	vblex.past	write
you	prn.obj.p2.mf.sp	you
this	det.dem.sg	this
precept	n.sg	precept
.	sent	.
</s>
</v>
<v at="10:6">
<s>
But	cnjcoo	but
from the beginning	adv	from the beginning
of	pr	of
the	det.def.sp	the
creation	n.sg	creation
God	n.sg	god
made	vblex.past	make
them	prn.obj.p3.mf.pl	them
male	n.sg	male
and	cnjcoo	and
female	n.sg	female
.	sent	.
</s>
</v>
<v at="10:7">
<s>
For	pr	for
this	det.dem.sg	this
cause	n.sg	cause
shall	vbmod.pres	shall
a	det.ind.sg	a
man	n.sg	man
leave	vblex.inf	leave
his	det.pos.sp	his
father	n.sg	father
and	cnjcoo	and
mother	n.sg	mother
,	cm	,
and	cnjcoo	and
cleave	unknown	cleave
to	pr	to
his	det.pos.sp	his
wife	n.sg	wife
;	sent	;
</s>
</v>
<v at="10:8">
<s>
And	cnjcoo	and
they	prn.subj.p3.mf.pl	they
twain	unknown	twain
shall	vbmod.pres	shall
be	vbser.inf	be
one	num.sg	one
flesh	n.sg	flesh
:	sent	:
</s>
<s>
so	preadv	so
then	cnjadv	then
they	prn.subj.p3.mf.pl	they
are	vbser.pres	be
no	adv	no
more	preadv	more
twain	unknown	twain
,	cm	,
but	cnjcoo	but
one	num.sg	one
flesh	n.sg	flesh
.	sent	.
</s>
</v>
<v at="10:9">
<s>
What	prn.rel.nn.mf.sg	what
therefore	cnjadv	therefore
God	n.sg	god
hath	vbhaver.pres.p3.sg	have
joined	vblex.past	join
together	adj	together
,	cm	,
let	vblex.imp	let
not	adv	not
man	n.sg	man
put	vblex.pp	put
asunder	unknown	asunder
.	sent	.
</s>
</v>
<v at="10:10">
<s>
And	cnjcoo	and
in	pr	in
the	det.def.sp	the
house	n.sg	house
his	adj.pos.pred	his
disciples	n.pl	disciple
asked	vblex.past	ask
him	prn.obj.p3.m.sg	him
again	adv	again
of	pr	of
the same	det.def.sp	the
matter	n.sg	matter
.	sent	.
</s>
</v>
<v at="10:11">
<s>
And	cnjcoo	and
he	prn.subj.p3.m.sg	he
saith	vblex.pres.p3.sg	say
unto	pr	unto
them	prn.obj.p3.mf.pl	them
,	cm	,
Whosoever	prn.rel	whosoever
shall	vbmod.pres	shall
put	vblex.inf	put
away	adv	away
his	det.pos.sp	his
wife	n.sg	wife
,	cm	,
and	cnjcoo	and
marry	vblex.pres	marry
another	prn.ind.mf.sg	another
,	cm	,
committeth	unknown	committeth
adultery	n.sg	adultery
against	pr	against
her	prn.obj.p3.f.sg	her
.	sent	.
</s>
</v>
<v at="10:12">
<s>
And	cnjcoo	and
if	cnjsub	if
a	det.ind.sg	a
woman	n.sg	woman
shall	vbmod.pres	shall
put	vblex.inf	put
away	adv	away
her	det.pos.sp	her
husband	n.sg	husband
,	cm	,
and	cnjcoo	and
be	vbser.inf	be
married	vblex.pp	marry
to	pr	to
another	prn.ind.mf.sg	another
,	cm	,
she	prn.subj.p3.f.sg	she
committeth	unknown	committeth
adultery	n.sg	adultery
.	sent	.
</s>
</v>
<v at="10:13">
<s>
And	cnjcoo	and
they	prn.subj.p3.mf.pl	they
brought	vblex.past	bring
young	adj.sint	young
children	n.pl	child
to	pr	to
him	prn.obj.p3.m.sg	him
,	cm	,
that	cnjsub	that
he	prn.subj.p3.m.sg	he
should	vbmod.past	shall
touch	vblex.inf	touch
them	prn.obj.p3.mf.pl	them
:	sent	:
</s>
<s>
and	cnjcoo	and
his	adj.pos.pred	his
disciples	n.pl	disciple
rebuked	unknown	rebuked
those that	prn.rel.nn.mf.pl	those that
brought	vblex.past	bring
them	prn.obj.p3.mf.pl	them
.	sent	.
</s>
</v>
<v at="10:14">
<s>
But	cnjcoo	but
when	cnjadv	when
Jesus	np.ant.m.sg	Jesus
saw	vblex.past	see
it	prn.obj.p3.nt.sg	it
,	cm	,
he	prn.subj.p3.m.sg	he
was	vbser.past.p3.sg	be
much	adv	much
displeased	vblex.pp	displease
,	cm	,
and	cnjcoo	and
said	vblex.past	say
unto	pr	unto
them	prn.obj.p3.mf.pl	them
,	cm	,
Suffer	vblex.imp	suffer
the	det.def.sp	the
little	adj	little
children	n.pl	child
to	pr	to
come	vblex.inf	come
unto	pr	unto
me	prn.obj.p1.mf.sg	me
,	cm	,
and	cnjcoo	and
forbid	vblex.pres	forbid
them	prn.obj.p3.mf.pl	them
not	adv	not
:	sent	:
</s>
<s>
for	pr	for
of	pr	of
such	det.ind.sp	such
is	vbser.pres.p3.sg	be
the	det.def.sp	the
kingdom	n.sg	kingdom
of	pr	of
God	n.sg	god
.	sent	.
</s>
</v>
<v at="10:15">
<s>
Verily	adv	verily
I	prn.subj.p1.mf.sg.min	prpers
say	vblex.pres	say
unto	pr	unto
you	prn.obj.p2.mf.sp	you
,	cm	,
Whosoever	prn.rel	whosoever
shall	vbmod.pres	shall
not	adv	not
receive	vblex.inf	receive
the	det.def.sp	the
kingdom	n.sg	kingdom
of	pr	of
God	n.sg	god
as a	pr	as a
little	det.qnt.sg	little
child	n.sg	child
,	cm	,
he	prn.subj.p3.m.sg	he
shall	vbmod.pres	shall
not	adv	not
enter	vblex.inf	enter
therein	unknown	therein
.	sent	.
</s>
</v>
<v at="10:16">
<s>
And	cnjcoo	and
he	prn.subj.p3.m.sg	he
took	vblex.past	take
them	prn.obj.p3.mf.pl	them
up	adv	up
in	pr	in
his	adj.pos.pred	his
arms	n.pl	arm
,	cm	,
put	vblex.imp	put
his	adj.pos.pred	his
hands	n.pl	hand
upon	pr	upon
them	prn.obj.p3.mf.pl	them
,	cm	,
and	cnjcoo	and
blessed	vblex.past	bless
them	prn.obj.p3.mf.pl	them
.	sent	.
</s>
</v>
<v at="10:17">
<s>
And	cnjcoo	and
when	cnjadv	when
he	prn.subj.p3.m.sg	he
was	vbser.past.p1.sg	be
gone	vblex.pp	go
forth	adv	forth
into	pr	into
the	det.def.sp	the
way	n.sg	way
,	cm	,
there	adv	there
came	vblex.past	come
one	num.sg	one
running	vblex.ger	run
,	cm	,
and	cnjcoo	and
kneeled	vblex.past	kneel
to	pr	to
him	prn.obj.p3.m.sg	him
,	cm	,
and	cnjcoo	and
asked	vblex.past	ask
him	prn.obj.p3.m.sg	him
,	cm	,
Good	adj.sint	good
Master	n.sg	master
,	cm	,
what	prn.rel.nn.mf.sg	what
shall	vbmod.pres	shall
I	prn.subj.p1.mf.sg.min	prpers
do	vblex.inf	do
that	cnjsub	that
I	prn.subj.p1.mf.sg.min	prpers
may	vbmod.pres	may
inherit	vblex.inf	inherit
eternal	adj	eternal
life	n.sg	life
?	sent	?
</s>
</v>
<v at="10:18">
<s>
And	cnjcoo	and
Jesus	np.ant.m.sg	Jesus
said	vblex.past	say
unto	pr	unto
him	prn.obj.p3.m.sg	him
,	cm	,
Why	adv.itg	why
callest	unknown	callest
thou	prn.subj.p2.mf.sg	thou
me	prn.obj.p1.mf.sg	me
good	n.sg	good
?	sent	?
</s>
<s>
there	adv	there
is	vbser.pres.p3.sg	be
none	prn.ind.nt.sg	none
good	n.sg	good
but	cnjcoo	but
one	prn.dem.mf.sg	one
,	cm	,
that	cnjsub	that
is	vbser.pres.p3.sg	be
,	cm	,
God	n.sg	god
.	sent	.
</s>
</v>
<v at="10:19">
<s>
Thou	prn.subj.p2.mf.sg	thou
knowest	unknown	knowest
the	det.def.sp	the
commandments	n.pl	commandment
,	cm	,
Do	vbdo.imp	do
not	adv	not
commit	vblex.inf	commit
adultery	n.sg	adultery
,	cm	,
Do	vbdo.imp	do
not	adv	not
kill	vblex.inf	kill
,	cm	,
Do	vbdo.imp	do
not	adv	not
steal	vblex.inf	steal
,	cm	,
Do	vbdo.imp	do
not	adv	not
bear	vblex.inf	bear
false	adj.sint	false
witness	n.sg	witness
,	cm	,
Defraud	vblex.imp	defraud
not	adv	not
,	cm	,
Honour	vblex.imp	honour
thy	det.pos.sp	thy
father	n.sg	father
and	cnjcoo	and
mother	n.sg	mother
.	sent	.
</s>
</v>
<v at="10:20">
<s>
And	cnjcoo	and
he	prn.subj.p3.m.sg	he
answered	vblex.past	answer
and	cnjcoo	and
said	vblex.past	say
unto	pr	unto
him	prn.obj.p3.m.sg	him
,	cm	,
Master	n.sg	master
,	cm	,
all	prn.qnt.mf.sp	all
these	prn.dem.mf.pl	this
have	vbhaver.pres	have
I	prn.subj.p1.mf.sg.min	prpers
observed	vblex.pp	observe
from	pr	from
my	det.pos.sp	my
youth	n.sg	youth
.	sent	.
</s>
</v>
<v at="10:21">
<s>
Then	adv	then
Jesus	np.ant.m.sg	Jesus
beholding	unknown	beholding
him	prn.obj.p3.m.sg	him
loved	vblex.past	love
him	prn.obj.p3.m.sg	him
,	cm	,
and	cnjcoo	and
said	vblex.past	say
unto	pr	unto
him	prn.obj.p3.m.sg	him
,	cm	,
One	num.sg	one
thing	n.sg	thing
thou	prn.subj.p2.mf.sg	thou
lackest	unknown	lackest
:	sent	:
</s>
<s>
go	vblex.imp	go
thy	det.pos.sp	thy
way	n.sg	way
,	cm	,
sell	vblex.imp	sell
whatsoever	prn.rel	whatsoever
thou	prn.subj.p2.mf.sg	thou
hast	vbhaver.pres.p2.sg	have
,	cm	,
and	cnjcoo	and
give	vblex.pres	give
to	pr	to
the	det.def.sp	the
poor	adj.sint	poor
,	cm	,
and	cnjcoo	and
thou	prn.subj.p2.mf.sg	thou
shalt	vbmod.pres.p2.sg	shall
have	vblex.inf	have
treasure	n.sg	treasure
in	pr	in
heaven	n.sg	heaven
:	sent	:
</s>
<s>
and	cnjcoo	and
come	vblex.pp	come
,	cm	,
take	vblex.imp	take
up	pr	up
the	det.def.sp	the
cross	n.sg	cross
,	cm	,
and	cnjcoo	and
follow	vblex.pres	follow
me	prn.obj.p1.mf.sg	me
.	sent	.
</s>
</v>
<v at="10:22">
<s>
And	cnjcoo	and
he	prn.subj.p3.m.sg	he
was	vbser.past.p1.sg	be
sad	adj.sint	sad
at	pr	at
that	det.dem.sg	that
saying	n.sg	saying
,	cm	,
and	cnjcoo	and
went	vblex.past	go
away	adv	away
grieved	vblex.pp	grieve
:	sent	:
</s>
<s>
for	pr	for
he	prn.subj.p3.m.sg	he
had	vblex.past	have
great	adj.sint	great
possessions	n.pl	possession
.	sent	.
</s>
</v>
<v at="10:23">
<s>
And	cnjcoo	and
Jesus	np.ant.m.sg	Jesus
looked	vblex.past	look
round	pr	round
about	adv	about
,	cm	,
and	cnjcoo	and
saith	vblex.pres.p3.sg	say
unto	pr	unto
his	adj.pos.pred	his
disciples	n.pl	disciple
,	cm	,
How	preadv	how
hardly	adv	hardly
shall	vbmod.pres	shall
they	prn.subj.p3.mf.pl	they
that	cnjsub	that
have	vblex.pres	have
riches	unknown	riches
enter	vblex.pres	enter
into	pr	into
the	det.def.sp	the
kingdom	n.sg	kingdom
of	pr	of
God	n.sg	god
!	sent	!
</s>
</v>
<v at="10:24">
<s>
And	cnjcoo	and
the	det.def.sp	the
disciples	n.pl	disciple
were	vbser.past	be
astonished	vblex.pp	astonish
at	pr	at
his	adj.pos.pred	his
words	n.pl	word
.	sent	.
</s>
<s>
But	cnjcoo	but
Jesus	np.ant.m.sg	Jesus
answereth	unknown	answereth
again	adv	again
,	cm	,
and	cnjcoo	and
saith	vblex.pres.p3.sg	say
unto	pr	unto
them	prn.obj.p3.mf.pl	them
,	cm	,
Children	n.pl	child
,	cm	,
how	adv.itg	how
hard	adj.sint	hard
is	vbser.pres.p3.sg	be
it	prn.obj.p3.nt.sg	it
for	pr	for
them	prn.obj.p3.mf.pl	them
that	det.dem.sg	that
trust	n.sg	trust
in	adv	in
riches	unknown	riches
to	pr	to
enter	vblex.inf	enter
into	pr	into
the	det.def.sp	the
kingdom	n.sg	kingdom
of	pr	of
God	n.sg	god
!	sent	!
</s>
</v>
<v at="10:25">
<s>
It	prn.subj.p3.nt.sg	prpers
is	vbser.pres.p3.sg	be
easier	adj.sint.comp	easy
for	pr	for
a	det.ind.sg	a
camel	n.sg	camel
to	pr	to
go through	vblex.inf	go through
the	det.def.sp	the
eye	n.sg	eye
of	pr	of
a	det.ind.sg	a
needle	n.sg	needle
,	cm	,
than	cnjsub	than
for	pr	for
a	det.ind.sg	a
rich	adj.sint	rich
man	n.sg	man
to	pr	to
enter	vblex.inf	enter
into	pr	into
the	det.def.sp	the
kingdom	n.sg	kingdom
of	pr	of
God	n.sg	god
.	sent	.
</s>
</v>
<v at="10:26">
<s>
And	cnjcoo	and
they	prn.subj.p3.mf.pl	they
were	vbser.past	be
astonished	vblex.pp	astonish
out of	pr	out of
measure	n.sg	measure
,	cm	,
saying	vblex.subs	say
among	pr	among
themselves	prn.ref.p3.mf.pl	themselves
,	cm	,
Who	prn.rel.an.mf.sp	who
then	cnjadv	then
can	vbmod.pres	can
be	vbser.inf	be
saved	vblex.pp	save
?	sent	?
</s>
</v>
<v at="10:27">
<s>
And	cnjcoo	and
Jesus	np.ant.m.sg	Jesus
looking	vblex.subs	look
upon	pr	upon
them	prn.obj.p3.mf.pl	them
saith	vblex.pres.p3.sg	say
,	cm	,
With	pr	with
men	n.pl	man
it	prn.subj.p3.nt.sg	it
is	vbser.pres.p3.sg	be
impossible	adj	impossible
,	cm	,
but	cnjcoo	but
not	adv	not
with	pr	with
God	n.sg	god
:	sent	:
</s>
<s>
for	pr	for
with	pr	with
God	n.sg	god
all	prn.qnt.mf.sp	all
things	n.pl	thing
are	vbser.pres	be
possible	adj	possible
.	sent	.
</s>
</v>
<v at="10:28">
<s>
Then	adv	then
Peter	np.ant.m.sg	Peter
began	vblex.past	begin
to	pr	to
say	vblex.inf	say
unto	pr	unto
him	prn.obj.p3.m.sg	him
,	cm	,
Lo	adv	lo
,	cm	,
we	prn.subj.p1.mf.pl	we
have	vbhaver.inf	have
left	vblex.pp	leave
all	prn.qnt.mf.sp	all
,	cm	,
and	cnjcoo	and
have	vbhaver.inf	have
followed	vblex.pp	follow
thee	prn.obj.p2.mf.sg	thou
.	sent	.
</s>
</v>
<v at="10:29">
<s>
And	cnjcoo	and
Jesus	np.ant.m.sg	Jesus
answered	vblex.past	answer
and	cnjcoo	and
said	vblex.past	say
,	cm	,
Verily	adv	verily
I	prn.subj.p1.mf.sg.min	prpers
say	vblex.pres	say
unto	pr	unto
you	prn.obj.p2.mf.sp	you
,	cm	,
There	adv	there
is	vbser.pres.p3.sg	be
no	det.ind.sp	no
man	n.sg	man
that	cnjsub	that
hath	vbhaver.pres.p3.sg	have
left	adj	left
house	n.sg	house
,	cm	,
or	cnjcoo	or
brethren	n.pl	brother
,	cm	,
or	cnjcoo	or
sisters	n.pl	sister
,	cm	,
or	cnjcoo	or
father	n.sg	father
,	cm	,
or	cnjcoo	or
mother	n.sg	mother
,	cm	,
or	cnjcoo	or
wife	n.sg	wife
,	cm	,
or	cnjcoo	or
children	n.pl	child
,	cm	,
or	cnjcoo	or
lands	n.pl	land
,	cm	,
for	pr	for
my	det.pos.sp	my
sake	n.sg	sake
,	cm	,
and	cnjcoo	and
the	det.def.sp	the
gospel	n.sg	gospel
's	gen	's
,	cm	,
</v>
<v at="10:30">
But	cnjcoo	but
he	prn.subj.p3.m.sg	he
shall	vbmod.pres	shall
receive	vblex.inf	receive
an	det.ind.sg	a
hundredfold	unknown	hundredfold
now	adv	now
in	adv	in
this time	adv	this time
,	cm	,
houses	n.pl	house
,	cm	,
and	cnjcoo	and
brethren	n.pl	brother
,	cm	,
and	cnjcoo	and
sisters	n.pl	sister
,	cm	,
and	cnjcoo	and
mothers	n.pl	mother
,	cm	,
and	cnjcoo	and
children	n.pl	child
,	cm	,
and	cnjcoo	and
lands	n.pl	land
,	cm	,
with	pr	with
persecutions	n.pl	persecution
;	sent	;
</s>
<s>
and	cnjcoo	and
in the world	adv	in the world
to	pr	to
come	vblex.inf	come
eternal	adj	eternal
life	n.sg	life
.	sent	.
</s>
</v>
<v at="10:31">
<s>
But	cnjcoo	but
many	prn.ind.mf.pl	many
that	cnjsub	that
are	vbser.pres	be
first	adj.ord	first
shall	vbmod.pres	shall
be	vbser.inf	be
last	adj.ord	last
;	sent	;
</s>
<s>
and	cnjcoo	and
the	det.def.sp	the
last	adj.ord	last
first	adj.ord	first
.	sent	.
</s>
</v>
<v at="10:32">
<s>
And	cnjcoo	and
they	prn.subj.p3.mf.pl	they
were	vbser.past	be
in	pr	in
the	det.def.sp	the
way	n.sg	way
going up	vblex.subs	go up
to	pr	to
Jerusalem	np.top.sg	Jerusalem
;	sent	;
</s>
<s>
and	cnjcoo	and
Jesus	np.ant.m.sg	Jesus
went	vblex.past	go
before	pr	before
them	prn.obj.p3.mf.pl	them
:	sent	:
</s>
<s>
and	cnjcoo	and
they	prn.subj.p3.mf.pl	they
were	vbser.past	be
amazed	vblex.pp	amaze
;	sent	;
</s>
<s>
and	cnjcoo	and
as	cnjadv	as
they	prn.subj.p3.mf.pl	they
followed	vblex.past	follow
,	cm	,
they	prn.subj.p3.mf.pl	they
were afraid	vblex.past.p2.sg	be afraid
.	sent	.
</s>
<s>
And	cnjcoo	and
he	prn.subj.p3.m.sg	he
took	vblex.past	take
again	adv	again
the	det.def.sp	the
twelve	num.pl	twelve
,	cm	,
and	cnjcoo	and
began	vblex.past	begin
to	pr	to
tell	vblex.inf	tell
them	prn.obj.p3.mf.pl	them
what	det.itg.sp	what
things	n.pl	thing
should	vbmod.past	shall
happen	vblex.inf	happen
unto	pr	unto
him	prn.obj.p3.m.sg	him
,	cm	,
</v>
<v at="10:33">
Saying	vblex.ger	say
,	cm	,
Behold	vblex.imp	behold
,	cm	,
we	prn.subj.p1.mf.pl	we
go up	vblex.inf	go up
to	pr	to
Jerusalem	np.top.sg	Jerusalem
;	sent	;
</s>
<s>
and	cnjcoo	and
the	det.def.sp	the
Son	n.sg	son
of	pr	of
man	n.sg	man
shall	vbmod.pres	shall
be	vbser.inf	be
delivered	vblex.pp	deliver
unto	pr	unto
the	det.def.sp	the
chief	n.sg	chief
priests	n.pl	priest
,	cm	,
and	cnjcoo	and
unto	pr	unto
the	det.def.sp	the
scribes	n.pl	scribe
;	sent	;
</s>
<s>
and	cnjcoo	and
they	prn.subj.p3.mf.pl	they
shall	vbmod.pres	shall
condemn	vblex.inf	condemn
him	prn.obj.p3.m.sg	him
to	pr	to
death	n.sg	death
,	cm	,
and	cnjcoo	and
shall	vbmod.pres	shall
deliver	vblex.inf	deliver
him	prn.obj.p3.m.sg	him
to	pr	to
the	det.def.sp	the
Gentiles	unknown	Gentiles
:	sent	:
</s>
</v>
<v at="10:34">
<s>
And	cnjcoo	and
they	prn.subj.p3.mf.pl	they
shall	vbmod.pres	shall
mock	vblex.inf	mock
him	prn.obj.p3.m.sg	him
,	cm	,
and	cnjcoo	and
shall	vbmod.pres	shall
scourge	n.sg	scourge
him	prn.obj.p3.m.sg	him
,	cm	,
and	cnjcoo	and
shall	vbmod.pres	shall
spit	n.sg	spit
upon	pr	upon
him	prn.obj.p3.m.sg	him
,	cm	,
and	cnjcoo	and
shall	vbmod.pres	shall
kill	vblex.inf	kill
him	prn.obj.p3.m.sg	him
:	sent	:
</s>
<s>
and	cnjcoo	and
the	det.def.sp	the
third	adj.ord	third
day	n.sg	day
he	prn.subj.p3.m.sg	he
shall	vbmod.pres	shall
rise	vblex.inf	rise
again	adv	again
.	sent	.
</s>
</v>
<v at="10:35">
<s>
And	cnjcoo	and
James	np.ant.m.sg	James
and	cnjcoo	and
John	np.ant.m.sg	John
,	cm	,
the	det.def.sp	the
sons	n.pl	son
of	pr	of
Zebedee	unknown	Zebedee
,	cm	,
come	vblex.imp	come
unto	pr	unto
him	prn.obj.p3.m.sg	him
,	cm	,
saying	vblex.pprs	say
,	cm	,
Master	n.sg	master
,	cm	,
we	prn.subj.p1.mf.pl	we
would	vbmod.past	will
that	cnjsub	that
thou	prn.subj.p2.mf.sg	thou
shouldest	unknown	shouldest
do	vblex.pres	do
for	pr	for
us	prn.obj.p1.mf.pl	us
whatsoever	prn.rel	whatsoever
we	prn.subj.p1.mf.pl	we
shall	vbmod.pres	shall
desire	vblex.inf	desire
.	sent	.
</s>
</v>
<v at="10:36">
<s>
And	cnjcoo	and
he	prn.subj.p3.m.sg	he
said	vblex.past	say
unto	pr	unto
them	prn.obj.p3.mf.pl	them
,	cm	,
What	prn.rel.nn.mf.sg	what
would	vbmod.past	will
ye	prn.subj.p2.mf.pl	ye
that	cnjsub	that
I	prn.subj.p1.mf.sg.min	prpers
should	vbmod.past	shall
do	vblex.inf	do
for	cnjadv	for
you	prn.obj.p2.mf.sp	you
?	sent	?
</s>
</v>
<v at="10:37">
<s>
They	prn.subj.p3.mf.pl	prpers
said	vblex.past	say
unto	pr	unto
him	prn.obj.p3.m.sg	him
,	cm	,
Grant	vblex.inf	grant
unto	pr	unto
us	prn.obj.p1.mf.pl	us
that	cnjsub	that
we	prn.subj.p1.mf.pl	we
may	vbmod.pres	may
sit	vblex.inf	sit
,	cm	,
one	num.sg	one
on	pr	on
thy	det.pos.sp	thy
right	adj	right
hand	n.sg	hand
,	cm	,
and	cnjcoo	and
the other	prn.dem.mf.sg	the other
on	pr	on
thy	det.pos.sp	thy
left	adj	left
hand	n.sg	hand
,	cm	,
in	pr	in
thy	det.pos.sp	thy
glory	n.sg	glory
.	sent	.
</s>
</v>
<v at="10:38">
<s>
But	cnjcoo	but
Jesus	np.ant.m.sg	Jesus
said	vblex.past	say
unto	pr	unto
them	prn.obj.p3.mf.pl	them
,	cm	,
Ye	prn.subj.p2.mf.pl	ye
know	vblex.pres	know
not	adv	not
what	prn.rel.nn.mf.sg	what
ye	prn.subj.p2.mf.pl	ye
ask	vblex.pres	ask
:	sent	:
</s>
<s>
can	vbmod.pres	can
ye	prn.subj.p2.mf.pl	ye
drink	n.sg	drink
of	pr	of
the	det.def.sp	the
cup	n.sg	cup
that	cnjsub	that
I	prn.subj.p1.mf.sg.min	prpers
drink	vblex.pres	drink
of	pr	of
?	sent	?
</s>
<s>
and	cnjcoo	and
be	vbser.inf	be
baptized	vblex.pp	baptise
with	pr	with
the	det.def.sp	the
baptism	n.sg	baptism
that	cnjsub	that
I	prn.subj.p1.mf.sg.min	prpers
am	vbser.pres.p1.sg	be
baptized	vblex.pp	baptise
with	pr	with
?	sent	?
</s>
</v>
<v at="10:39">
<s>
And	cnjcoo	and
they	prn.subj.p3.mf.pl	they
said	vblex.past	say
unto	pr	unto
him	prn.obj.p3.m.sg	him
,	cm	,
We	prn.subj.p1.mf.pl	prpers
can	vbmod.pres	can
.	sent	.
</s>
<s>
And	cnjcoo	and
Jesus	np.ant.m.sg	Jesus
said	vblex.past	say
unto	pr	unto
them	prn.obj.p3.mf.pl	them
,	cm	,
Ye	prn.subj.p2.mf.pl	ye
shall	vbmod.pres	shall
indeed	adv	indeed
drink	vblex.inf	drink
of	pr	of
the	det.def.sp	the
cup	n.sg	cup
that	cnjsub	that
I	prn.subj.p1.mf.sg.min	prpers
drink	vblex.pres	drink
of	pr	of
;	sent	;
</s>
<s>
and	cnjcoo	and
with	pr	with
the	det.def.sp	the
baptism	n.sg	baptism
that	cnjsub	that
I	prn.subj.p1.mf.sg.min	prpers
am	vbser.pres.p1.sg	be
baptized	vblex.pp	baptise
withal	unknown	withal
shall	vbmod.pres	shall
ye	prn.subj.p2.mf.pl	ye
be	vbser.inf	be
baptized	vblex.pp	baptise
:	sent	:
</s>
</v>
<v at="10:40">
<s>
But	cnjcoo	but
to	pr	to
sit	vblex.inf	sit
on	pr	on
my	det.pos.sp	my
right	adj	right
hand	n.sg	hand
and	cnjcoo	and
on	pr	on
my	det.pos.sp	my
left	adj	left
hand	n.sg	hand
is	vbser.pres.p3.sg	be
not	adv	not
mine	vblex.inf	mine
to	pr	to
give	vblex.inf	give
;	sent	;
</s>
<s>
but	cnjcoo	but
it	prn.subj.p3.nt.sg	it
shall	vbmod.pres	shall
be	vbser.inf	be
given	vblex.pp	give
to	pr	to
them	prn.obj.p3.mf.pl	them
for	pr	for
whom	prn.rel.an.mf.sp	whom
it	prn.subj.p3.nt.sg	it
is	vbser.pres.p3.sg	be
prepared	vblex.pp	prepare
.	sent	.
</s>
</v>
<v at="10:41">
<s>
And	cnjcoo	and
when	cnjadv	when
the	det.def.sp	the
ten	num.pl	ten
heard	vblex.past	hear
it	prn.obj.p3.nt.sg	it
,	cm	,
they	prn.subj.p3.mf.pl	they
began	vblex.past	begin
to	pr	to
be	vbser.inf	be
much	adv	much
displeased	vblex.pp	displease
with	pr	with
James	np.cog.sg	James
and	cnjcoo	and
John	np.ant.m.sg	John
.	sent	.
</s>
</v>
<v at="10:42">
<s>
But	cnjcoo	but
Jesus	np.ant.m.sg	Jesus
called	vblex.past	call
them	prn.obj.p3.mf.pl	them
to	pr	to
him	prn.obj.p3.m.sg	him
,	cm	,
and	cnjcoo	and
saith	vblex.pres.p3.sg	say
unto	pr	unto
them	prn.obj.p3.mf.pl	them
,	cm	,
Ye	prn.subj.p2.mf.pl	ye
know	vblex.pres	know
that	cnjsub	that
they	prn.subj.p3.mf.pl	they
which	prn.itg.mf.sp	which
are	vbser.pres	be
accounted	vblex.pp	account
to	pr	to
rule	vblex.inf	rule
over	adv	over
the	det.def.sp	the
Gentiles	unknown	Gentiles
exercise	n.sg	exercise
lordship	n.sg	lordship
over	pr	over
them	prn.obj.p3.mf.pl	them
;	sent	;
</s>
<s>
and	cnjcoo	and
their	det.pos.sp	their
great	adj.sint	great
ones	prn.dem.mf.pl	one
exercise	vblex.pres	exercise
authority	n.sg	authority
upon	pr	upon
them	prn.obj.p3.mf.pl	them
.	sent	.
</s>
</v>
<v at="10:43">
<s>
But	cnjcoo	but
so	cnjadv	so
shall	vbmod.pres	shall
it	prn.obj.p3.nt.sg	it
not	adv	not
be	vbser.inf	be
among	pr	among
you	prn.obj.p2.mf.sp	you
:	sent	:
</s>
<s>
but	cnjcoo	but
whosoever	prn.rel	whosoever
will	vbmod.pres	will
be	vbser.inf	be
great	adj.sint	great
among	pr	among
you	prn.obj.p2.mf.sp	you
,	cm	,
shall	vbmod.pres	shall
be	vbser.inf	be
your	det.pos.sp	your
minister	n.sg	minister
:	sent	:
</s>
</v>
<v at="10:44">
<s>
And	cnjcoo	and
whosoever	prn.rel	whosoever
of	pr	of
you	prn.obj.p2.mf.sp	you
will	vbmod.pres	will
be	vbser.inf	be
the	det.def.sp	the
chiefest	unknown	chiefest
,	cm	,
shall	vbmod.pres	shall
be	vbser.inf	be
servant	n.sg	servant
of	pr	of
all	prn.qnt.mf.sp	all
.	sent	.
</s>
</v>
<v at="10:45">
<s>
For	pr	for
even	adv	even
the	det.def.sp	the
Son	n.sg	son
of	pr	of
man	n.sg	man
came	vblex.past	come
not	adv	not
to	pr	to
be	vbser.inf	be
ministered	unknown	ministered
unto	pr	unto
,	cm	,
but	cnjcoo	but
to	pr	to
minister	n.sg	minister
,	cm	,
and	cnjcoo	and
to	pr	to
give	vblex.inf	give
his	det.pos.sp	his
life	n.sg	life
a	det.ind.sg	a
ransom	n.sg	ransom
for	pr	for
many	prn.ind.mf.pl	many
.	sent	.
</s>
</v>
<v at="10:46">
<s>
And	cnjcoo	and
they	prn.subj.p3.mf.pl	they
came	vblex.past	come
to	pr	to
Jericho	unknown	Jericho
:	sent	:
</s>
<s>
and	cnjcoo	and
as	cnjadv	as
he	prn.subj.p3.m.sg	he
went out	vblex.past	go out
of	pr	of
Jericho	unknown	Jericho
with	pr	with
his	adj.pos.pred	his
disciples	n.pl	disciple
and	cnjcoo	and
a	det.ind.sg	a
great	adj.sint	great
number	n.sg	number
of	pr	of
people	n.pl	person
,	cm	,
blind	adj.sint	blind
Bartimaeus	unknown	Bartimaeus
,	cm	,
the	det.def.sp	the
son	n.sg	son
of	pr	of
Timaeus	unknown	Timaeus
,	cm	,
sat	vblex.pp	sit
by	pr	by
the	det.def.sp	the
highway	n.sg	highway
side	n.sg	side
begging	n.sg	begging
.	sent	.
</s>
</v>
<v at="10:47">
<s>
And	cnjcoo	and
when	cnjadv	when
he	prn.subj.p3.m.sg	he
heard	vblex.past	hear
that	cnjsub	that
it	prn.subj.p3.nt.sg	it
was	vbser.past.p3.sg	be
Jesus	np.ant.m.sg	Jesus
of	pr	of
Nazareth	np.top.sg	Nazareth
,	cm	,
he	prn.subj.p3.m.sg	he
began	vblex.past	begin
to	pr	to
cry	vblex.inf	cry
out	adv	out
,	cm	,
and	cnjcoo	and
say	vblex.pres	say
,	cm	,
Jesus	np.ant.m.sg	Jesus
,	cm	,
thou	prn.subj.p2.mf.sg	thou
son	n.sg	son
of	pr	of
David	np.ant.m.sg	David
,	cm	,
have	vblex.imp	have
mercy	n.sg	mercy
on	pr	on
me	prn.obj.p1.mf.sg	me
.	sent	.
</s>
</v>
<v at="10:48">
<s>
And	cnjcoo	and
many	prn.ind.mf.pl	many
charged	vblex.past	charge
him	prn.obj.p3.m.sg	him
that	cnjsub	that
he	prn.subj.p3.m.sg	he
should	vbmod.past	shall
hold	vblex.inf	hold
his	det.pos.sp	his
peace	n.sg	peace
:	sent	:
</s>
<s>
but	cnjcoo	but
he	prn.subj.p3.m.sg	he
cried	vblex.past	cry
the	det.def.sp	the
more	adv	more
a	det.ind.sg	a
great	adj.sint	great
deal	n.sg	deal
,	cm	,
Thou	prn.subj.p2.mf.sg	thou
son	n.sg	son
of	pr	of
David	np.cog.sg	David
,	cm	,
have	vblex.imp	have
mercy	n.sg	mercy
on	pr	on
me	prn.obj.p1.mf.sg	me
.	sent	.
</s>
</v>
<v at="10:49">
<s>
And	cnjcoo	and
Jesus	np.ant.m.sg	Jesus
stood	vblex.past	stand
still	adv	still
,	cm	,
and	cnjcoo	and
commanded	vblex.past	command
him	prn.obj.p3.m.sg	him
to	pr	to
be	vbser.inf	be
called	vblex.pp	call
.	sent	.
</s>
<s>
And	cnjcoo	and
they	prn.subj.p3.mf.pl	they
call	vblex.pres	call
the	det.def.sp	the
blind	adj.sint	blind
man	n.sg	man
,	cm	,
saying	vblex.ger	say
unto	pr	unto
him	prn.obj.p3.m.sg	him
,	cm	,
Be	vbser.inf	be
of	pr	of
good	adj.sint	good
comfort	n.sg	comfort
,	cm	,
rise	n.sg	rise
;	sent	;
</s>
<s>
he	prn.subj.p3.m.sg	he
calleth	unknown	calleth
thee	prn.obj.p2.mf.sg	thou
.	sent	.
</s>
</v>
<v at="10:50">
<s>
And	cnjcoo	and
he	prn.subj.p3.m.sg	he
,	cm	,
casting	vblex.pprs	cast
away	adv	away
his	det.pos.sp	his
garment	n.sg	garment
,	cm	,
rose	vblex.past	rise
,	cm	,
and	cnjcoo	and
came	vblex.past	come
to	pr	to
Jesus	np.ant.m.sg	Jesus
.	sent	.
</s>
</v>
<v at="10:51">
<s>
And	cnjcoo	and
Jesus	np.ant.m.sg	Jesus
answered	vblex.past	answer
and	cnjcoo	and
said	vblex.past	say
unto	pr	unto
him	prn.obj.p3.m.sg	him
,	cm	,
What	prn.rel.nn.mf.sg	what
wilt	vbmod.pres.p2.sg	will
thou	prn.subj.p2.mf.sg	thou
that	cnjsub	that
I	prn.subj.p1.mf.sg.min	prpers
should	vbmod.past	shall
do	vblex.inf	do
unto	pr	unto
thee	prn.obj.p2.mf.sg	thou
?	sent	?
</s>
<s>
The	det.def.sp	the
blind	adj.sint	blind
man	n.sg	man
said	vblex.past	say
unto	pr	unto
him	prn.obj.p3.m.sg	him
,	cm	,
Lord	n.sg	lord
,	cm	,
that	cnjsub	that
I	prn.subj.p1.mf.sg.min	prpers
might	vbmod.pres	might
receive	vblex.inf	receive
my	det.pos.sp	my
sight	n.sg	sight
.	sent	.
</s>
</v>
<v at="10:52">
<s>
And	cnjcoo	and
Jesus	np.ant.m.sg	Jesus
said	vblex.past	say
unto	pr	unto
him	prn.obj.p3.m.sg	him
,	cm	,
Go	vblex.imp	go
thy	det.pos.sp	thy
way	n.sg	way
;	sent	;
</s>
<s>
thy	det.pos.sp	thy
faith	n.sg	faith
hath	vbhaver.pres.p3.sg	have
made	vblex.past	make
thee	prn.obj.p2.mf.sg	thou
whole	n.sg	whole
.	sent	.
</s>
<s>
And	cnjcoo	and
immediately	adv	immediately
he	prn.subj.p3.m.sg	he
received	vblex.past	receive
his	det.pos.sp	his
sight	n.sg	sight
,	cm	,
and	cnjcoo	and
followed	vblex.past	follow
Jesus	np.ant.m.sg	Jesus
in	pr	in
the	det.def.sp	the
way	n.sg	way
.	sent	.
</s>
</v>
<v at="11:1">
<s>
And	cnjcoo	and
when	cnjadv	when
they	prn.subj.p3.mf.pl	they
came	vblex.past	come
nigh	unknown	nigh
to	pr	to
Jerusalem	np.top.sg	Jerusalem
,	cm	,
unto	pr	unto
Bethphage	unknown	Bethphage
and	cnjcoo	and
Bethany	np.ant.f.sg	Bethany
,	cm	,
at	pr	at
the	det.def.sp	the
mount	n.sg	mount
of	pr	of
Olives	n.pl	olive
,	cm	,
he	prn.subj.p3.m.sg	he
sendeth	unknown	sendeth
forth	adv	forth
two	num.pl	two
of	pr	of
his	adj.pos.pred	his
disciples	n.pl	disciple
,	cm	,
</v>
<v at="11:2">
And	cnjcoo	and
saith	vblex.pres.p3.sg	say
unto	pr	unto
them	prn.obj.p3.mf.pl	them
,	cm	,
Go	vblex.imp	go
your	det.pos.sp	your
way	n.sg	way
into	pr	into
the	det.def.sp	the
village	n.sg	village
over	adv	over
against	pr	against
you	prn.obj.p2.mf.sp	you
:	sent	:
</s>
<s>
and	cnjcoo	and
as soon as	cnjadv	as soon as
ye	prn.subj.p2.mf.pl	ye
be	vbser.inf	be
entered	vblex.pp	enter
into	pr	into
it	prn.obj.p3.nt.sg	it
,	cm	,
ye	prn.subj.p2.mf.pl	ye
shall	vbmod.pres	shall
find	vblex.inf	find
a	det.ind.sg	a
colt	unknown	colt
tied	vblex.past	tie
,	cm	,
whereon	unknown	whereon
never	adv	never
man	n.sg	man
sat	vblex.pp	sit
;	sent	;
</s>
<s>
loose	adj.sint	loose
him	prn.obj.p3.m.sg	him
,	cm	,
and	cnjcoo	and
bring	vblex.inf	bring
him	prn.obj.p3.m.sg	him
.	sent	.
</s>
</v>
<v at="11:3">
<s>
And	cnjcoo	and
if	cnjsub	if
any	det.ind.sp	any
man	n.sg	man
say	vblex.pres	say
unto	pr	unto
you	prn.obj.p2.mf.sp	you
,	cm	,
Why	adv.itg	why
do	vblex.inf	do
ye	prn.subj.p2.mf.pl	ye
this	prn.dem.mf.sg	this
?	sent	?
</s>
<s>
say	vblex.imp	say
ye	prn.subj.p2.mf.pl	ye
that	cnjsub	that
the	det.def.sp	the
Lord	n.sg	lord
hath	vbhaver.pres.p3.sg	have
need	n.sg	need
of	pr	of
him	prn.obj.p3.m.sg	him
;	sent	;
</s>
<s>
and	cnjcoo	and
straightway	adv	straightway
he	prn.subj.p3.m.sg	he
will	vbmod.pres	will
send	vblex.inf	send
him	prn.obj.p3.m.sg	him
hither	unknown	hither
.	sent	.
</s>
</v>
<v at="11:4">
<s>
And	cnjcoo	and
they	prn.subj.p3.mf.pl	they
went	vblex.past	go
their	det.pos.sp	their
way	n.sg	way
,	cm	,
and	cnjcoo	and
found	vblex.past	find
the	det.def.sp	the
colt	unknown	colt
tied	vblex.pp	tie
by	pr	by
the	det.def.sp	the
door	n.sg	door
without	pr	without
in	pr	in
a	det.ind.sg	a
place	n.sg	place
where	adv	where
two	num.pl	two
ways	n.pl	way
met	vblex.past	meet
;	sent	;
</s>
<s>
and	cnjcoo	and
they	prn.subj.p3.mf.pl	they
loose	adj.sint	loose
him	prn.obj.p3.m.sg	him
.	sent	.
</s>
</v>
<v at="11:5">
<s>
And	cnjcoo	and
certain	adj	certain
of	pr	of
them	prn.obj.p3.mf.pl	them
that	prn.dem.mf.sg	that
stood	vblex.past	stand
there	adv	there
said	vblex.pp	say
unto	pr	unto
them	prn.obj.p3.mf.pl	them
,	cm	,
What	prn.rel.nn.mf.sg	what
do	vblex.pres	do
ye	prn.subj.p2.mf.pl	ye
,	cm	,
loosing	unknown	loosing
the	det.def.sp	the
colt	unknown	colt
?	sent	?
</s>
</v>
<v at="11:6">
<s>
And	cnjcoo	and
they	prn.subj.p3.mf.pl	they
said	vblex.past	say
unto	pr	unto
them	prn.obj.p3.mf.pl	them
even	adv	even
as	pr	as
Jesus	np.ant.m.sg	Jesus
had	vbhaver.past	have
commanded	vblex.pp	command
:	sent	:
</s>
<s>
and	cnjcoo	and
they	prn.subj.p3.mf.pl	they
let	vblex.past	let
them	prn.obj.p3.mf.pl	them
go	vblex.inf	go
.	sent	.
</s>
</v>
<v at="11:7">
<s>
And	cnjcoo	and
they	prn.subj.p3.mf.pl	they
brought	vblex.past	bring
the	det.def.sp	the
colt	unknown	colt
to	pr	to
Jesus	np.ant.m.sg	Jesus
,	cm	,
and	cnjcoo	and
cast	vblex.past	cast
their	det.pos.sp	their
garments	n.pl	garment
on	pr	on
him	prn.obj.p3.m.sg	him
;	sent	;
</s>
<s>
and	cnjcoo	and
he	prn.subj.p3.m.sg	he
sat	vblex.past	sit
upon	pr	upon
him	prn.obj.p3.m.sg	him
.	sent	.
</s>
</v>
<v at="11:8">
<s>
And	cnjcoo	and
many	det.qnt.pl	many
spread	n.sg	spread
their	det.pos.sp	their
garments	n.pl	garment
in	pr	in
the	det.def.sp	the
way	n.sg	way
:	sent	:
</s>
<s>
and	cnjcoo	and
others	prn.ind.mf.pl	others
cut	vblex.pp	cut
down	adv	down
branches	vblex.pres.p3.sg	branch
off	adv	off
the	det.def.sp	the
trees	n.pl	tree
,	cm	,
and	cnjcoo	and
strawed	unknown	strawed
them	prn.obj.p3.mf.pl	them
in	pr	in
the	det.def.sp	the
way	n.sg	way
.	sent	.
</s>
</v>
<v at="11:9">
<s>
And	cnjcoo	and
they	prn.subj.p3.mf.pl	they
that	cnjsub	that
went	vblex.past	go
before	adv	before
,	cm	,
and	cnjcoo	and
they	prn.subj.p3.mf.pl	they
that	prn.dem.mf.sg	that
followed	vblex.past	follow
,	cm	,
cried	vblex.pp	cry
,	cm	,
saying	vblex.pprs	say
,	cm	,
Hosanna	unknown	Hosanna
;	sent	;
</s>
<s>
Blessed	vblex.pp	bless
is	vbser.pres.p3.sg	be
he	prn.subj.p3.m.sg	he
that	cnjsub	that
cometh	vblex.pres.p3.sg	come
in	pr	in
the	det.def.sp	the
name	n.sg	name
of	pr	of
the	det.def.sp	the
Lord	n.sg	lord
:	sent	:
</s>
</v>
<v at="11:10">
<s>
Blessed	vblex.pp	bless
be	vbser.inf	be
the	det.def.sp	the
kingdom	n.sg	kingdom
of	pr	of
our	det.pos.sp	our
father	n.sg	father
David	np.ant.m.sg	David
,	cm	,
that	cnjsub	that
cometh	vblex.pres.p3.sg	come
in	pr	in
the	det.def.sp	the
name	n.sg	name
of	pr	of
the	det.def.sp	the
Lord	n.sg	lord
:	sent	:
</s>
<s>
Hosanna	unknown	Hosanna
in	adv	in
the	det.def.sp	the
highest	adj.sint.sup	high
.	sent	.
</s>
</v>
<v at="11:11">
<s>
And	cnjcoo	and
Jesus	np.ant.m.sg	Jesus
entered	vblex.past	enter
into	pr	into
Jerusalem	np.top.sg	Jerusalem
,	cm	,
and	cnjcoo	and
into	pr	into
the	det.def.sp	the
temple	n.sg	temple
:	sent	:
</s>
<s>
and	cnjcoo	and
when	cnjadv	when
he	prn.subj.p3.m.sg	he
had	vbhaver.past	have
looked	vblex.pp	look
round	pr	round
about	adv	about
upon	pr	upon
all	prn.qnt.mf.sp	all
things	n.pl	thing
,	cm	,
and	cnjcoo	and
now	adv	now
the	det.def.sp	the
eventide	unknown	eventide
was	vbser.past.p1.sg	be
come	vblex.pp	come
,	cm	,
he	prn.subj.p3.m.sg	he
went out	vblex.past	go out
unto	pr	unto
Bethany	np.ant.f.sg	Bethany
with	pr	with
the	det.def.sp	the
twelve	num.pl	twelve
.	sent	.
</s>
</v>
<v at="11:12">
<s>
And	cnjcoo	and
on	adv	on
the	det.def.sp	the
morrow	unknown	morrow
,	cm	,
when	cnjadv	when
they	prn.subj.p3.mf.pl	they
were	vbser.past	be
come from	vblex.pp	come from
Bethany	np.ant.f.sg	Bethany
,	cm	,
he	prn.subj.p3.m.sg	he
was hungry	vblex.past.p1.sg	be hungry
:	sent	:
</s>
</v>
<v at="11:13">
<s>
And	cnjcoo	and
seeing	vblex.pprs	see
a	det.ind.sg	a
fig	n.sg	fig
tree	n.sg	tree
afar	adv	afar
off	adv	off
having	vblex.ger	have
leaves	n.pl	leaf
,	cm	,
he	prn.subj.p3.m.sg	he
came	vblex.past	come
,	cm	,
if	cnjsub	if
haply	unknown	haply
he	prn.subj.p3.m.sg	he
might	vbmod.pres	might
find	vblex.inf	find
any	det.ind.sp	any
thing	n.sg	thing
thereon	unknown	thereon
:	sent	:
</s>
<s>
and	cnjcoo	and
when	cnjadv	when
he	prn.subj.p3.m.sg	he
came	vblex.past	come
to	pr	to
it	prn.obj.p3.nt.sg	it
,	cm	,
he	prn.subj.p3.m.sg	he
found	vblex.past	find
nothing	prn.ind.mf.sg	nothing
but	pr	but
leaves	n.pl	leaf
;	sent	;
</s>
<s>
for	pr	for
the	det.def.sp	the
time	n.sg	time
of	pr	of
figs	n.pl	fig
was	vbser.past.p1.sg	be
not yet	adv	not yet
.	sent	.
</s>
</v>
<v at="11:14">
<s>
And	cnjcoo	and
Jesus	np.ant.m.sg	Jesus
answered	vblex.past	answer
and	cnjcoo	and
said	vblex.past	say
unto	pr	unto
it	prn.obj.p3.nt.sg	it
,	cm	,
No	det.ind.sp	no
man	n.sg	man
eat	vblex.pres	eat
fruit	n.sg	fruit
of	pr	of
thee	prn.obj.p2.mf.sg	thou
hereafter	adv	hereafter
for ever	adv	for ever
.	sent	.
</s>
<s>
And	cnjcoo	and
his	adj.pos.pred	his
disciples	n.pl	disciple
heard	vblex.past	hear
it	prn.obj.p3.nt.sg	it
.	sent	.
</s>
</v>
<v at="11:15">
<s>
And	cnjcoo	and
they	prn.subj.p3.mf.pl	they
come	vblex.pres	come
to	pr	to
Jerusalem	np.top.sg	Jerusalem
:	sent	:
</s>
<s>
and	cnjcoo	and
Jesus	np.ant.m.sg	Jesus
went	vblex.past	go
into	pr	into
the	det.def.sp	the
temple	n.sg	temple
,	cm	,
and	cnjcoo	and
began	vblex.past	begin
to	pr	to
cast	vblex.inf	cast
out	pr	out
them	prn.obj.p3.mf.pl	them
that	prn.dem.mf.sg	that
sold	vblex.past	sell
and	cnjcoo	and
bought	vblex.pp	buy
in	pr	in
the	det.def.sp	the
temple	n.sg	temple
,	cm	,
and	cnjcoo	and
overthrew	vblex.past	overthrow
the	det.def.sp	the
tables	n.pl	table
of	pr	of
the	det.def.sp	the
moneychangers	unknown	moneychangers
,	cm	,
and	cnjcoo	and
the	det.def.sp	the
seats	n.pl	seat
of	pr	of
them	prn.obj.p3.mf.pl	them
that	prn.rel.an.mf.sp	that
sold	vblex.past	sell
doves	n.pl	dove
;	sent	;
</s>
</v>
<v at="11:16">
<s>
And	cnjcoo	and
would	vbmod.past	will
not	adv	not
suffer	vblex.inf	suffer
that	cnjsub	that
any	det.ind.sp	any
man	n.sg	man
should	vbmod.past	shall
carry	vblex.inf	carry
any	det.ind.sp	any
vessel	n.sg	vessel
through	pr	through
the	det.def.sp	the
temple	n.sg	temple
.	sent	.
</s>
</v>
<v at="11:17">
<s>
And	cnjcoo	and
he	prn.subj.p3.m.sg	he
taught	vblex.past	teach
,	cm	,
saying	vblex.ger	say
unto	pr	unto
them	prn.obj.p3.mf.pl	them
,	cm	,
Is	vbser.pres.p3.sg	be
it	prn.obj.p3.nt.sg	it
not	adv	not
written	vblex.pp	write
,	cm	,
My	det.pos.sp	my
house	n.sg	house
shall	vbmod.pres	shall
be	vbser.inf	be
called	vblex.pp	call
of	pr	of
all	prn.qnt.mf.sp	all
nations	n.pl	nation
the	det.def.sp	the
house	n.sg	house
of	pr	of
prayer	n.sg	prayer
?	sent	?
</s>
<s>
but	cnjcoo	but
ye	prn.subj.p2.mf.pl	ye
have	vbhaver.inf	have
made	vblex.pp	make
it	prn.obj.p3.nt.sg	it
a	det.ind.sg	a
den	unknown	den
of	pr	of
thieves	n.pl	thief
.	sent	.
</s>
</v>
<v at="11:18">
<s>
And	cnjcoo	and
the	det.def.sp	the
scribes	n.pl	scribe
and	cnjcoo	and
chief	n.sg	chief
priests	n.pl	priest
heard	vblex.past	hear
it	prn.obj.p3.nt.sg	it
,	cm	,
and	cnjcoo	and
sought	vblex.past	seek
how	preadv	how
they	prn.subj.p3.mf.pl	they
might	vbmod.pres	might
destroy	vblex.inf	destroy
him	prn.obj.p3.m.sg	him
:	sent	:
</s>
<s>
for	pr	for
they	prn.subj.p3.mf.pl	they
feared	vblex.past	fear
him	prn.obj.p3.m.sg	him
,	cm	,
because	cnjadv	because
all	predet.sp	all
the	det.def.sp	the
people	n.pl	person
was	vbser.past.p1.sg	be
astonished	vblex.pp	astonish
at	pr	at
his	det.pos.sp	his
doctrine	n.sg	doctrine
.	sent	.
</s>
</v>
<v at="11:19">
<s>
And	cnjcoo	and
when	cnjadv	when
even	adv	even
was	vbser.past.p1.sg	be
come	vblex.pp	come
,	cm	,
he	prn.subj.p3.m.sg	he
went out	vblex.past	go out
of	pr	of
the	det.def.sp	the
city	n.sg	city
.	sent	.
</s>
</v>
<v at="11:20">
<s>
And	cnjcoo	and
in the morning	adv	in the morning
,	cm	,
as	cnjadv	as
they	prn.subj.p3.mf.pl	they
passed	vblex.past	pass
by	pr	by
,	cm	,
they	prn.subj.p3.mf.pl	they
saw	vblex.past	see
the	det.def.sp	the
fig	n.sg	fig
tree	n.sg	tree
dried	vblex.past	dry
up	adv	up
from	pr	from
the	det.def.sp	the
roots	n.pl	root
.	sent	.
</s>
</v>
<v at="11:21">
<s>
And	cnjcoo	and
Peter	np.ant.m.sg	Peter
calling	vblex.subs	call
to	pr	to
remembrance	n.sg	remembrance
saith	vblex.pres.p3.sg	say
unto	pr	unto
him	prn.obj.p3.m.sg	him
,	cm	,
Master	n.sg	master
,	cm	,
behold	vblex.imp	behold
,	cm	,
the	det.def.sp	the
fig	n.sg	fig
tree	n.sg	tree
which	prn.itg.mf.sp	which
thou	prn.subj.p2.mf.sg	thou
cursedst	unknown	cursedst
is	vbser.pres.p3.sg	be
withered	adj	withered
away	adv	away
.	sent	.
</s>
</v>
<v at="11:22">
<s>
And	cnjcoo	and
Jesus	np.ant.m.sg	Jesus
answering	vblex.subs	answer
saith	vblex.pres.p3.sg	say
unto	pr	unto
them	prn.obj.p3.mf.pl	them
,	cm	,
Have	vblex.imp	have
faith	n.sg	faith
in	pr	in
God	n.sg	god
.	sent	.
</s>
</v>
<v at="11:23">
<s>
For	pr	for
verily	adv	verily
I	prn.subj.p1.mf.sg.min	prpers
say	vblex.pres	say
unto	pr	unto
you	prn.obj.p2.mf.sp	you
,	cm	,
That	cnjsub	that
whosoever	prn.rel	whosoever
shall	vbmod.pres	shall
say	vblex.inf	say
unto	pr	unto
this	det.dem.sg	this
mountain	n.sg	mountain
,	cm	,
Be	vbser.inf	be
thou	prn.subj.p2.mf.sg	thou
removed	vblex.past	remove
,	cm	,
and	cnjcoo	and
be	vbser.inf	be
thou	prn.subj.p2.mf.sg	thou
cast	vblex.past	cast
into	pr	into
the	det.def.sp	the
sea	n.sg	sea
;	sent	;
</s>
<s>
and	cnjcoo	and
shall	vbmod.pres	shall
not	adv	not
doubt	vblex.inf	doubt
in	pr	in
his	det.pos.sp	his
heart	n.sg	heart
,	cm	,
but	cnjcoo	but
shall	vbmod.pres	shall
believe	vblex.inf	believe
that	cnjsub	that
those	det.dem.pl	that
things	n.pl	thing
which	prn.itg.mf.sp	which
he	prn.subj.p3.m.sg	he
saith	vblex.pres.p3.sg	say
shall	vbmod.pres	shall
come	vblex.inf	come
to	pr	to
pass	vblex.inf	pass
;	sent	;
</s>
<s>
he	prn.subj.p3.m.sg	he
shall	vbmod.pres	shall
have	vblex.inf	have
whatsoever	prn.rel	whatsoever
he	prn.subj.p3.m.sg	he
saith	vblex.pres.p3.sg	say
.	sent	.
</s>
</v>
<v at="11:24">
<s>
Therefore	adv	therefore
I	prn.subj.p1.mf.sg.min	prpers
say	vblex.pres	say
unto	pr	unto
you	prn.obj.p2.mf.sp	you
,	cm	,
What	det.itg.sp	what
things	n.pl	thing
soever	unknown	soever
ye	prn.subj.p2.mf.pl	ye
desire	n.sg	desire
,	cm	,
when	cnjadv	when
ye	prn.subj.p2.mf.pl	ye
pray	vblex.pres	pray
,	cm	,
believe	vblex.imp	believe
that	cnjsub	that
ye	prn.subj.p2.mf.pl	ye
receive	vblex.pres	receive
them	prn.obj.p3.mf.pl	them
,	cm	,
and	cnjcoo	and
ye	prn.subj.p2.mf.pl	ye
shall	vbmod.pres	shall
have	vblex.inf	have
them	prn.obj.p3.mf.pl	them
.	sent	.
</s>
</v>
<v at="11:25">
<s>
And	cnjcoo	and
when	cnjadv	when
ye	prn.subj.p2.mf.pl	ye
stand	n.sg	stand
praying	vblex.ger	pray
,	cm	,
forgive	vblex.imp	forgive
,	cm	,
if	cnjsub	if
ye	prn.subj.p2.mf.pl	ye
have	vblex.pres	have
ought	unknown	ought
against	pr	against
any	prn.qnt.mf.sp	any
:	sent	:
</s>
<s>
that	prn.dem.mf.sg	that
your	det.pos.sp	your
Father	n.sg	father
also	adv	also
which	prn.itg.mf.sp	which
is	vbser.pres.p3.sg	be
in	pr	in
heaven	n.sg	heaven
may	vbmod.pres	may
forgive	vblex.inf	forgive
you	prn.obj.p2.mf.sp	you
your	det.pos.sp	your
trespasses	unknown	trespasses
.	sent	.
</s>
</v>
<v at="11:26">
<s>
But	cnjcoo	but
if	cnjsub	if
ye	prn.subj.p2.mf.pl	ye
do	vbdo.pres	do
not	adv	not
forgive	vblex.inf	forgive
,	cm	,
neither	cnjcoo	neither
will	vbmod.pres	will
your	det.pos.sp	your
Father	n.sg	father
which	prn.itg.mf.sp	which
is	vbser.pres.p3.sg	be
in	pr	in
heaven	n.sg	heaven
forgive	vblex.pres	forgive
your	det.pos.sp	your
trespasses	unknown	trespasses
.	sent	.
</s>
</v>
<v at="11:27">
<s>
And	cnjcoo	and
they	prn.subj.p3.mf.pl	they
come	vblex.pres	come
again	adv	again
to	pr	to
Jerusalem	np.top.sg	Jerusalem
:	sent	:
</s>
<s>
and	cnjcoo	and
as	cnjadv	as
he	prn.subj.p3.m.sg	he
was	vbser.past.p1.sg	be
walking	vblex.ger	walk
in	pr	in
the	det.def.sp	the
temple	n.sg	temple
,	cm	,
there	adv	there
come	vblex.pp	come
to	pr	to
him	prn.obj.p3.m.sg	him
the	det.def.sp	the
chief	n.sg	chief
priests	n.pl	priest
,	cm	,
and	cnjcoo	and
the	det.def.sp	the
scribes	n.pl	scribe
,	cm	,
and	cnjcoo	and
the	det.def.sp	the
elders	n.pl	elder
,	cm	,
</v>
<v at="11:28">
And	cnjcoo	and
say	vblex.pres	say
unto	pr	unto
him	prn.obj.p3.m.sg	him
,	cm	,
By	pr	by
what	det.itg.sp	what
authority	n.sg	authority
doest	vblex.pres	do
thou	prn.subj.p2.mf.sg	thou
these	det.dem.pl	this
things	n.pl	thing
?	sent	?
</s>
<s>
and	cnjcoo	and
who	prn.rel.an.mf.sp	who
gave	vblex.past	give
thee	prn.obj.p2.mf.sg	thou
this	det.dem.sg	this
authority	n.sg	authority
to	pr	to
do	vblex.inf	do
these	det.dem.pl	this
things	n.pl	thing
?	sent	?
</s>
</v>
<v at="11:29">
<s>
And	cnjcoo	and
Jesus	np.ant.m.sg	Jesus
answered	vblex.past	answer
and	cnjcoo	and
said	vblex.past	say
unto	pr	unto
them	prn.obj.p3.mf.pl	them
,	cm	,
I	prn.subj.p1.mf.sg.min	prpers
will	vbmod.pres	will
also	adv	also
ask	vblex.inf	ask
of	pr	of
you	prn.obj.p2.mf.sp	you
one	num.sg	one
question	vblex.inf	question
,	cm	,
and	cnjcoo	and
answer	vblex.pres	answer
me	prn.obj.p1.mf.sg	me
,	cm	,
and	cnjcoo	and
I	prn.subj.p1.mf.sg.min	prpers
will	vbmod.pres	will
tell	vblex.inf	tell
you	prn.obj.p2.mf.sp	you
by	pr	by
what	det.itg.sp	what
authority	n.sg	authority
I	prn.subj.p1.mf.sg.min	prpers
do	vblex.inf	do
these	det.dem.pl	this
things	n.pl	thing
.	sent	.
</s>
</v>
<v at="11:30">
<s>
The	det.def.sp	the
baptism	n.sg	baptism
of	pr	of
John	np.cog.sg	John
,	cm	,
was	vbser.past.p1.sg	be
it	prn.subj.p3.nt.sg	it
from	pr	from
heaven	n.sg	heaven
,	cm	,
or	cnjcoo	or
of	pr	of
men	n.pl	man
?	sent	?
</s>
<s>
answer	vblex.imp	answer
me	prn.obj.p1.mf.sg	me
.	sent	.
</s>
</v>
<v at="11:31">
<s>
And	cnjcoo	and
they	prn.subj.p3.mf.pl	they
reasoned	vblex.past	reason
with	pr	with
themselves	prn.ref.p3.mf.pl	themselves
,	cm	,
saying	vblex.pprs	say
,	cm	,
If	cnjsub	if
we	prn.subj.p1.mf.pl	we
shall	vbmod.pres	shall
say	vblex.inf	say
,	cm	,
From	pr	from
heaven	n.sg	heaven
;	sent	;
</s>
<s>
he	prn.subj.p3.m.sg	he
will	vbmod.pres	will
say	vblex.inf	say
,	cm	,
Why	adv.itg	why
then	adv	then
did	vblex.past	do
ye	prn.subj.p2.mf.pl	ye
not	adv	not
believe	vblex.inf	believe
him	prn.obj.p3.m.sg	him
?	sent	?
</s>
</v>
<v at="11:32">
<s>
But	cnjcoo	but
if	cnjsub	if
we	prn.subj.p1.mf.pl	we
shall	vbmod.pres	shall
say	vblex.inf	say
,	cm	,
Of	pr	of
men	n.pl	man
;	sent	;
</s>
<s>
they	prn.subj.p3.mf.pl	they
feared	vblex.past	fear
the	det.def.sp	the
people	n.pl	person
:	sent	:
</s>
<s>
for	pr	for
all	prn.qnt.mf.sp	all
men	n.pl	man
counted	vblex.past	count
John	np.cog.sg	John
,	cm	,
that	cnjsub	that
he	prn.subj.p3.m.sg	he
was	vbser.past.p3.sg	be
a	det.ind.sg	a
prophet	n.sg	prophet
indeed	adv	indeed
.	sent	.
</s>
</v>
<v at="11:33">
<s>
And	cnjcoo	and
they	prn.subj.p3.mf.pl	they
answered	vblex.past	answer
and	cnjcoo	and
said	vblex.past	say
unto	pr	unto
Jesus	np.ant.m.sg	Jesus
,	cm	,
We	prn.subj.p1.mf.pl	prpers
cannot	vbmod.pres	can
tell	vblex.inf	tell
.	sent	.
</s>
<s>
And	cnjcoo	and
Jesus	np.ant.m.sg	Jesus
answering	vblex.subs	answer
saith	vblex.pres.p3.sg	say
unto	pr	unto
them	prn.obj.p3.mf.pl	them
,	cm	,
Neither	cnjcoo	neither
do	vbdo.pres	do
I	prn.subj.p1.mf.sg.min	prpers
tell	vblex.inf	tell
you	prn.obj.p2.mf.sp	you
by	pr	by
what	det.itg.sp	what
authority	n.sg	authority
I	prn.subj.p1.mf.sg.min	prpers
do	vblex.inf	do
these	det.dem.pl	this
things	n.pl	thing
.	sent	.
</s>
</v>
<v at="12:1">
<s>
And	cnjcoo	and
he	prn.subj.p3.m.sg	he
began	vblex.past	begin
to	pr	to
speak	vblex.inf	speak
unto	pr	unto
them	prn.obj.p3.mf.pl	them
by	pr	by
parables	n.pl	parable
.	sent	.
</s>
<s>
A	det.ind.sg	a
certain	adj	certain
man	n.sg	man
planted	vblex.past	plant
a	det.ind.sg	a
vineyard	n.sg	vineyard
,	cm	,
and	cnjcoo	and
set	vblex.past	set
an	det.ind.sg	a
hedge	n.sg	hedge
about	pr	about
it	prn.obj.p3.nt.sg	it
,	cm	,
and	cnjcoo	and
digged	unknown	digged
a	det.ind.sg	a
place	n.sg	place
for	pr	for
the	det.def.sp	the
winefat	unknown	winefat
,	cm	,
and	cnjcoo	and
built	vblex.past	build
a	det.ind.sg	a
tower	n.sg	tower
,	cm	,
and	cnjcoo	and
let	vblex.past	let
it	prn.obj.p3.nt.sg	it
out	adv	out
to	pr	to
husbandmen	unknown	husbandmen
,	cm	,
and	cnjcoo	and
went	vblex.past	go
into	pr	into
a	det.ind.sg	a
far	adj.sint	far
country	n.sg	country
.	sent	.
</s>
</v>
<v at="12:2">
<s>
And	cnjcoo	and
at	pr	at
the	det.def.sp	the
season	n.sg	season
he	prn.subj.p3.m.sg	he
sent	vblex.past	send
to	pr	to
the	det.def.sp	the
husbandmen	unknown	husbandmen
a	det.ind.sg	a
servant	n.sg	servant
,	cm	,
that	prn.rel.an.mf.sp	that
he	prn.subj.p3.m.sg	he
might	vbmod.pres	might
receive	vblex.inf	receive
from	pr	from
the	det.def.sp	the
husbandmen	unknown	husbandmen
of	pr	of
the	det.def.sp	the
fruit	n.sg	fruit
of	pr	of
the	det.def.sp	the
vineyard	n.sg	vineyard
.	sent	.
</s>
</v>
<v at="12:3">
<s>
And	cnjcoo	and
they	prn.subj.p3.mf.pl	they
caught	vblex.past	catch
him	prn.obj.p3.m.sg	him
,	cm	,
and	cnjcoo	and
beat	vblex.past	beat
him	prn.obj.p3.m.sg	him
,	cm	,
and	cnjcoo	and
sent	vblex.past	send
him	prn.obj.p3.m.sg	him
away	adv	away
empty	adj.sint	empty
.	sent	.
</s>
</v>
<v at="12:4">
<s>
And	cnjcoo	and
again	adv	again
he	prn.subj.p3.m.sg	he
sent	vblex.past	send
unto	pr	unto
them	prn.obj.p3.mf.pl	them
another	det.ind.sg	another
servant	n.sg	servant
;	sent	;
</s>
<s>
and	cnjcoo	and
at	pr	at
him	prn.obj.p3.m.sg	him
they	prn.subj.p3.mf.pl	they
cast	vblex.past	cast
stones	n.pl	stone
,	cm	,
and	cnjcoo	and
wounded	vblex.past	wound
him	prn.obj.p3.m.sg	him
in	pr	in
the	det.def.sp	the
head	n.sg	head
,	cm	,
and	cnjcoo	and
sent	vblex.past	send
him	prn.obj.p3.m.sg	him
away	adv	away
shamefully	unknown	shamefully
handled	vblex.pp	handle
.	sent	.
</s>
</v>
<v at="12:5">
<s>
And	cnjcoo	and
again	adv	again
he	prn.subj.p3.m.sg	he
sent	vblex.past	send
another	prn.ind.mf.sg	another
;	sent	;
</s>
<s>
and	cnjcoo	and
him	prn.obj.p3.m.sg	him
they	prn.subj.p3.mf.pl	they
killed	vblex.past	kill
,	cm	,
and	cnjcoo	and
many	prn.ind.mf.pl	many
others	prn.ind.mf.pl	others
;	sent	;
</s>
<s>
beating	vblex.ger	beat
some	prn.ind.mf.pl	some
,	cm	,
and	cnjcoo	and
killing	vblex.subs	kill
some	prn.ind.mf.pl	some
.	sent	.
</s>
</v>
<v at="12:6">
<s>
Having	vblex.pprs	have
yet	adv	yet
therefore	cnjadv	therefore
one	num.sg	one
son	n.sg	son
,	cm	,
his	det.pos.sp	his
wellbeloved	unknown	wellbeloved
,	cm	,
he	prn.subj.p3.m.sg	he
sent	vblex.past	send
him	prn.obj.p3.m.sg	him
also	adv	also
last	adj.ord	last
unto	pr	unto
them	prn.obj.p3.mf.pl	them
,	cm	,
saying	vblex.pprs	say
,	cm	,
They	prn.subj.p3.mf.pl	prpers
will	vbmod.pres	will
reverence	n.sg	reverence
my	det.pos.sp	my
son	n.sg	son
.	sent	.
</s>
</v>
<v at="12:7">
<s>
But	cnjcoo	but
those	prn.dem.mf.pl	that
husbandmen	unknown	husbandmen
said	vblex.past	say
among	pr	among
themselves	prn.ref.p3.mf.pl	themselves
,	cm	,
This	prn.dem.mf.sg	this
is	vbser.pres.p3.sg	be
the	det.def.sp	the
heir	n.sg	heir
;	sent	;
</s>
<s>
come	vblex.imp	come
,	cm	,
let	vblex.imp	let
us	prn.obj.p1.mf.pl	us
kill	vblex.inf	kill
him	prn.obj.p3.m.sg	him
,	cm	,
and	cnjcoo	and
the	det.def.sp	the
inheritance	n.sg	inheritance
shall	vbmod.pres	shall
be	vbser.inf	be
our	det.pos.sp	our
's	vbhaver.pres.p3.sg	have
.	sent	.
</s>
</v>
<v at="12:8">
<s>
And	cnjcoo	and
they	prn.subj.p3.mf.pl	they
took	vblex.past	take
him	prn.obj.p3.m.sg	him
,	cm	,
and	cnjcoo	and
killed	vblex.past	kill
him	prn.obj.p3.m.sg	him
,	cm	,
and	cnjcoo	and
cast	vblex.past	cast
him	prn.obj.p3.m.sg	him
out of	pr	out of
the	det.def.sp	the
vineyard	n.sg	vineyard
.	sent	.
</s>
</v>
<v at="12:9">
<s>
What	prn.rel.nn.mf.sg	what
shall	vbmod.pres	shall
therefore	cnjadv	therefore
the	det.def.sp	the
lord	n.sg	lord
of	pr	of
the	det.def.sp	the
vineyard	n.sg	vineyard
do	vblex.inf	do
?	sent	?
</s>
<s>
he	prn.subj.p3.m.sg	he
will	vbmod.pres	will
come	vblex.inf	come
and	cnjcoo	and
destroy	vblex.inf	destroy
the	det.def.sp	the
husbandmen	unknown	husbandmen
,	cm	,
and	cnjcoo	and
will	vbmod.pres	will
give	vblex.inf	give
the	det.def.sp	the
vineyard	n.sg	vineyard
unto	pr	unto
others	prn.ind.mf.pl	others
.	sent	.
</s>
</v>
<v at="12:10">
<s>
And	cnjcoo	and
have	vblex.pres	have
ye	prn.subj.p2.mf.pl	ye
not	adv	not
read	vblex.past	read
this	det.dem.sg	this
scripture	n.sg	scripture
;	sent	;
</s>
<s>
The	det.def.sp	the
stone	n.sg	stone
which	prn.itg.mf.sp	which
the	det.def.sp	the
builders	n.pl	builder
rejected	vblex.pp	reject
is	vbser.pres.p3.sg	be
become	vblex.pp	become
the	det.def.sp	the
head	n.sg	head
of	pr	of
the	det.def.sp	the
corner	n.sg	corner
:	sent	:
</s>
</v>
<v at="12:11">
<s>
This	prn.dem.mf.sg	this
was	vbser.past.p1.sg	be
the	det.def.sp	the
Lord	n.sg	lord
's	gen	's
doing	vblex.ger	do
,	cm	,
and	cnjcoo	and
it	prn.subj.p3.nt.sg	it
is	vbser.pres.p3.sg	be
marvellous	adj	marvellous
in	pr	in
our	det.pos.sp	our
eyes	n.pl	eye
?	sent	?
</s>
</v>
<v at="12:12">
<s>
And	cnjcoo	and
they	prn.subj.p3.mf.pl	they
sought	vblex.past	seek
to	pr	to
lay	vblex.inf	lay
hold	n.sg	hold
on	pr	on
him	prn.obj.p3.m.sg	him
,	cm	,
but	cnjcoo	but
feared	vblex.past	fear
the	det.def.sp	the
people	n.pl	person
:	sent	:
</s>
<s>
for	pr	for
they	prn.subj.p3.mf.pl	they
knew	vblex.past	know
that	cnjsub	that
he	prn.subj.p3.m.sg	he
had	vbhaver.past	have
spoken	vblex.pp	speak
the	det.def.sp	the
parable	n.sg	parable
against	pr	against
them	prn.obj.p3.mf.pl	them
:	sent	:
</s>
<s>
and	cnjcoo	and
they	prn.subj.p3.mf.pl	they
left	vblex.past	leave
him	prn.obj.p3.m.sg	him
,	cm	,
and	cnjcoo	and
went	vblex.past	go
their	det.pos.sp	their
way	n.sg	way
.	sent	.
</s>
</v>
<v at="12:13">
<s>
And	cnjcoo	and
they	prn.subj.p3.mf.pl	they
send	vblex.pres	send
unto	pr	unto
him	prn.obj.p3.m.sg	him
certain	adj	certain
of	pr	of
the	det.def.sp	the
Pharisees	unknown	Pharisees
and	cnjcoo	and
of	pr	of
the	det.def.sp	the
Herodians	unknown	Herodians
,	cm	,
to	pr	to
catch	vblex.inf	catch
him	prn.obj.p3.m.sg	him
in	pr	in
his	adj.pos.pred	his
words	n.pl	word
.	sent	.
</s>
</v>
<v at="12:14">
<s>
And	cnjcoo	and
when	cnjadv	when
they	prn.subj.p3.mf.pl	they
were	vbser.past	be
come	vblex.pp	come
,	cm	,
they	prn.subj.p3.mf.pl	they
say	vblex.pres	say
unto	pr	unto
him	prn.obj.p3.m.sg	him
,	cm	,
Master	n.sg	master
,	cm	,
we	prn.subj.p1.mf.pl	we
know	vblex.pres	know
that	cnjsub	that
thou	prn.subj.p2.mf.sg	thou
art	vbser.pres.p2.sg	be
true	adj.sint	true
,	cm	,
and	cnjcoo	and
carest	unknown	carest
for	pr	for
no	det.ind.sp	no
man	n.sg	man
:	sent	:
</s>
<s>
for	pr	for
thou	prn.subj.p2.mf.sg	thou
regardest	unknown	regardest
not	adv	not
the	det.def.sp	the
person	n.sg	person
of	pr	of
men	n.pl	man
,	cm	,
but	cnjcoo	but
teachest	unknown	teachest
the	det.def.sp	the
way	n.sg	way
of	pr	of
God	n.sg	god
in truth	adv	in truth
:	sent	:
</s>
<s>
Is	vbser.pres.p3.sg	be
it	prn.obj.p3.nt.sg	it
lawful	adj	lawful
to	pr	to
give	vblex.inf	give
tribute	n.sg	tribute
to	pr	to
Caesar	np.cog.sg	Caesar
,	cm	,
or	cnjcoo	or
not	adv	not
?	sent	?
</s>
</v>
<v at="12:15">
<s>
Shall	vbmod.pres	shall
we	prn.subj.p1.mf.pl	we
give	vblex.inf	give
,	cm	,
or	cnjcoo	or
shall	vbmod.pres	shall
we	prn.subj.p1.mf.pl	we
not	adv	not
give	vblex.inf	give
?	sent	?
</s>
<s>
But	cnjcoo	but
he	prn.subj.p3.m.sg	he
,	cm	,
knowing	vblex.pprs	know
their	det.pos.sp	their
hypocrisy	n.sg	hypocrisy
,	cm	,
said	vblex.past	say
unto	pr	unto
them	prn.obj.p3.mf.pl	them
,	cm	,
Why	adv.itg	why
tempt	vblex.pres	tempt
ye	prn.subj.p2.mf.pl	ye
me	prn.obj.p1.mf.sg	me
?	sent	?
</s>
<s>
bring	vblex.imp	bring
me	prn.obj.p1.mf.sg	me
a	det.ind.sg	a
penny	n.sg	penny
,	cm	,
that	cnjsub	that
I	prn.subj.p1.mf.sg.min	prpers
may	vbmod.pres	may
see	vblex.inf	see
it	prn.obj.p3.nt.sg	it
.	sent	.
</s>
</v>
<v at="12:16">
<s>
And	cnjcoo	and
they	prn.subj.p3.mf.pl	they
brought	vblex.past	bring
it	prn.obj.p3.nt.sg	it
.	sent	.
</s>
<s>
And	cnjcoo	and
he	prn.subj.p3.m.sg	he
saith	vblex.pres.p3.sg	say
unto	pr	unto
them	prn.obj.p3.mf.pl	them
,	cm	,
Whose	det.pos.mf.sp	whose
is	vbser.pres.p3.sg	be
this	det.dem.sg	this
image	n.sg	image
and	cnjcoo	and
superscription	unknown	superscription
?	sent	?
</s>
<s>
And	cnjcoo	and
they	prn.subj.p3.mf.pl	they
said	vblex.past	say
unto	pr	unto
him	prn.obj.p3.m.sg	him
,	cm	,
Caesar	np.cog.sg	Caesar
's	gen	's
.	sent	.
</s>
</v>
<v at="12:17">
<s>
And	cnjcoo	and
Jesus	np.ant.m.sg	Jesus
answering	vblex.subs	answer
said	vblex.past	say
unto	pr	unto
them	prn.obj.p3.mf.pl	them
,	cm	,
Render	vblex.imp	render
to	pr	to
Caesar	np.cog.sg	Caesar
the	det.def.sp	the
things	n.pl	thing
that	prn.dem.mf.sg	that
are	vbser.pres	be
Caesar	np.cog.sg	Caesar
's	gen	's
,	cm	,
and	cnjcoo	and
to	pr	to
God	n.sg	god
the	det.def.sp	the
things	n.pl	thing
that	prn.dem.mf.sg	that
are	vbser.pres	be
God	n.sg	god
's	gen	's
.	sent	.
</s>
<s>
And	cnjcoo	and
they	prn.subj.p3.mf.pl	they
marvelled	unknown	marvelled
at	pr	at
him	prn.obj.p3.m.sg	him
.	sent	.
</s>
</v>
<v at="12:18">
<s>
Then	adv	then
come	vblex.imp	come
unto	pr	unto
him	prn.obj.p3.m.sg	him
the	det.def.sp	the
Sadducees	unknown	Sadducees
,	cm	,
which	prn.itg.mf.sp	which
say	vblex.pres	say
there	adv	there
is	vbser.pres.p3.sg	be
no	det.ind.sp	no
resurrection	n.sg	resurrection
;	sent	;
</s>
<s>
and	cnjcoo	and
they	prn.subj.p3.mf.pl	they
asked	vblex.past	ask
him	prn.obj.p3.m.sg	him
,	cm	,
saying	vblex.ger	say
,	cm	,
</v>
<v at="12:19">
Master	adj	master
,	cm	,
Moses	np.ant.m.sg	Moses
wrote	vblex.past	write
unto	pr	unto
us	prn.obj.p1.mf.pl	us
,	cm	,
If	cnjsub	if
a	det.ind.sg	a
man	n.sg	man
's	gen	's
brother	n.sg	brother
die	n.sg	die
,	cm	,
and	cnjcoo	and
leave	vblex.pres	leave
his	det.pos.sp	his
wife	n.sg	wife
behind	pr	behind
him	prn.obj.p3.m.sg	him
,	cm	,
and	cnjcoo	and
leave	vblex.pres	leave
no	det.ind.sp	no
children	n.pl	child
,	cm	,
that	cnjsub	that
his	det.pos.sp	his
brother	n.sg	brother
should	vbmod.past	shall
take	vblex.inf	take
his	det.pos.sp	his
wife	n.sg	wife
,	cm	,
and	cnjcoo	and
raise	vblex.pres	raise
up	pr	up
seed	n.pl	seed
unto	pr	unto
his	det.pos.sp	his
brother	n.sg	brother
.	sent	.
</s>
</v>
<v at="12:20">
<s>
Now	adv	now
there	adv	there
were	vbser.past	be
seven	num.pl	seven
brethren	n.pl	brother
:	sent	:
</s>
<s>
and	cnjcoo	and
the	det.def.sp	the
first	adj.ord	first
took	vblex.past	take
a	det.ind.sg	a
wife	n.sg	wife
,	cm	,
and	cnjcoo	and
dying	vblex.ger	die
left	vblex.pp	leave
no	det.ind.sp	no
seed	n.sg	seed
.	sent	.
</s>
</v>
<v at="12:21">
<s>
And	cnjcoo	and
the	det.def.sp	the
second	n.sg	second
took	vblex.past	take
her	prn.obj.p3.f.sg	her
,	cm	,
and	cnjcoo	and
died	vblex.past	die
,	cm	,
neither	cnjcoo	neither
left	vblex.past	leave
he	prn.subj.p3.m.sg	he
any	det.ind.sp	any
seed	n.sg	seed
:	sent	:
</s>
<s>
and	cnjcoo	and
the	det.def.sp	the
third	adj.ord	third
likewise	adv	likewise
.	sent	.
</s>
</v>
<v at="12:22">
<s>
And	cnjcoo	and
the	det.def.sp	the
seven	num.pl	seven
had	vblex.past	have
her	prn.obj.p3.f.sg	her
,	cm	,
and	cnjcoo	and
left	vblex.past	leave
no	det.ind.sp	no
seed	n.sg	seed
:	sent	:
</s>
<s>
last	adj.ord	last
of	pr	of
all	predet.sp	all
the	det.def.sp	the
woman	n.sg	woman
died	vblex.pp	die
also	adv	also
.	sent	.
</s>
</v>
<v at="12:23">
<s>
In	pr	in
the	det.def.sp	the
resurrection	n.sg	resurrection
therefore	cnjadv	therefore
,	cm	,
when	cnjadv	when
they	prn.subj.p3.mf.pl	they
shall	vbmod.pres	shall
rise	vblex.inf	rise
,	cm	,
whose	det.pos.mf.sp	whose
wife	n.sg	wife
shall	vbmod.pres	shall
she	prn.subj.p3.f.sg	she
be	vbser.inf	be
of	pr	of
them	prn.obj.p3.mf.pl	them
?	sent	?
</s>
<s>
for	pr	for
the	det.def.sp	the
seven	num.pl	seven
had	vblex.past	have
her	prn.obj.p3.f.sg	her
to	pr	to
wife	n.sg	wife
.	sent	.
</s>
</v>
<v at="12:24">
<s>
And	cnjcoo	and
Jesus	np.ant.m.sg	Jesus
answering	vblex.subs	answer
said	vblex.past	say
unto	pr	unto
them	prn.obj.p3.mf.pl	them
,	cm	,
Do	vblex.imp	do
ye	prn.subj.p2.mf.pl	ye
not	adv	not
therefore	cnjadv	therefore
err	unknown	err
,	cm	,
because	cnjadv	because
ye	prn.subj.p2.mf.pl	ye
know	vblex.pres	know
not	adv	not
the	det.def.sp	the
scriptures	n.pl	scripture
,	cm	,
neither	cnjcoo	neither
the	det.def.sp	the
power	n.sg	power
of	pr	of
God	n.sg	god
?	sent	?
</s>
</v>
<v at="12:25">
<s>
For	pr	for
when	cnjadv	when
they	prn.subj.p3.mf.pl	they
shall	vbmod.pres	shall
rise	vblex.inf	rise
from	pr	from
the	det.def.sp	the
dead	adj	dead
,	cm	,
they	prn.subj.p3.mf.pl	they
neither	cnjcoo	neither
marry	vblex.pres	marry
,	cm	,
nor	cnjcoo	nor
are	vbser.pres	be
given	vblex.pp	give
in	pr	in
marriage	n.sg	marriage
;	sent	;
</s>
<s>
but	cnjcoo	but
are	vbser.pres	be
as	pr	as
the	det.def.sp	the
angels	n.pl	angel
which	prn.itg.mf.sp	which
are	vbser.pres	be
in	pr	in
heaven	n.sg	heaven
.	sent	.
</s>
</v>
<v at="12:26">
<s>
And	cnjcoo	and
as	cnjadv	as
touching	vblex.ger	touch
the	det.def.sp	the
dead	adj	dead
,	cm	,
that	cnjsub	that
they	prn.subj.p3.mf.pl	they
rise	vblex.pres	rise
:	sent	:
</s>
<s>
have	vblex.imp	have
ye	prn.subj.p2.mf.pl	ye
not	adv	not
read	vblex.pp	read
in	pr	in
the	det.def.sp	the
book	n.sg	book
of	pr	of
Moses	np.cog.sg	Moses
,	cm	,
how	adv	how
in	pr	in
the	det.def.sp	the
bush	n.sg	bush
God	n.sg	god
spake	vblex.past	speak
unto	pr	unto
him	prn.obj.p3.m.sg	him
,	cm	,
saying	vblex.pprs	say
,	cm	,
I	prn.subj.p1.mf.sg.min	prpers
am	vbser.pres.p1.sg	be
the	det.def.sp	the
God	n.sg	god
of	pr	of
Abraham	np.ant.m.sg	Abraham
,	cm	,
and	cnjcoo	and
the	det.def.sp	the
God	n.sg	god
of	pr	of
Isaac	np.ant.m.sg	Isaac
,	cm	,
and	cnjcoo	and
the	det.def.sp	the
God	n.sg	god
of	pr	of
Jacob	np.ant.m.sg	Jacob
?	sent	?
</s>
</v>
<v at="12:27">
<s>
He	prn.subj.p3.m.sg	prpers
is	vbser.pres.p3.sg	be
not	adv	not
the	det.def.sp	the
God	n.sg	god
of	pr	of
the	det.def.sp	the
dead	adj	dead
,	cm	,
but	cnjcoo	but
the	det.def.sp	the
God	n.sg	god
of	pr	of
the	det.def.sp	the
living	adj	living
:	sent	:
</s>
<s>
ye	prn.subj.p2.mf.pl	ye
therefore	adv	therefore
do	vblex.inf	do
greatly	adv	greatly
err	unknown	err
.	sent	.
</s>
</v>
<v at="12:28">
<s>
And	cnjcoo	and
one	prn.dem.mf.sg	one
of	pr	of
the	det.def.sp	the
scribes	n.pl	scribe
came	vblex.past	come
,	cm	,
and	cnjcoo	and
having	vbhaver.subs	have
heard	vblex.pp	hear
them	prn.obj.p3.mf.pl	them
reasoning	vblex.pprs	reason
together	adj	together
,	cm	,
and	cnjcoo	and
perceiving	vblex.ger	perceive
that	cnjsub	that
he	prn.subj.p3.m.sg	he
had	vbhaver.past	have
answered	vblex.pp	answer
them	prn.obj.p3.mf.pl	them
well	adv	well
,	cm	,
asked	vblex.past	ask
him	prn.obj.p3.m.sg	him
,	cm	,
Which	prn.itg.mf.sp	which
is	vbser.pres.p3.sg	be
the	det.def.sp	the
first	adj.ord	first
commandment	n.sg	commandment
of	pr	of
all	prn.qnt.mf.sp	all
?	sent	?
</s>
</v>
<v at="12:29">
<s>
And	cnjcoo	and
Jesus	np.ant.m.sg	Jesus
answered	vblex.past	answer
him	prn.obj.p3.m.sg	him
,	cm	,
The	det.def.sp	the
first of all	adv	first of all
the	det.def.sp	the
commandments	n.pl	commandment
is	vbser.pres.p3.sg	be
,	cm	,
Hear	vblex.imp	hear
,	cm	,
O	unknown	O
Israel	np.top.sg	Israel
;	sent	;
</s>
<s>
The	det.def.sp	the
Lord	n.sg	lord
our	det.pos.sp	our
God	n.sg	god
is	vbser.pres.p3.sg	be
one	num.sg	one
Lord	n.sg	lord
:	sent	:
</s>
</v>
<v at="12:30">
<s>
And	cnjcoo	and
thou	prn.subj.p2.mf.sg	thou
shalt	vbmod.pres.p2.sg	shall
love	vblex.inf	love
the	det.def.sp	the
Lord	n.sg	lord
thy	det.pos.sp	thy
God	n.sg	god
with	pr	with
all	predet.sp	all
thy	det.pos.sp	thy
heart	n.sg	heart
,	cm	,
and	cnjcoo	and
with	pr	with
all	prn.qnt.mf.sp	all
thy	det.pos.sp	thy
soul	n.sg	soul
,	cm	,
and	cnjcoo	and
with	pr	with
all	prn.qnt.mf.sp	all
thy	det.pos.sp	thy
mind	n.sg	mind
,	cm	,
and	cnjcoo	and
with	pr	with
all	prn.qnt.mf.sp	all
thy	det.pos.sp	thy
strength	n.sg	strength
:	sent	:
</s>
<s>
this	prn.dem.mf.sg	this
is	vbser.pres.p3.sg	be
the	det.def.sp	the
first	adj.ord	first
commandment	n.sg	commandment
.	sent	.
</s>
</v>
<v at="12:31">
<s>
And	cnjcoo	and
the	det.def.sp	the
second	n.sg	second
is	vbser.pres.p3.sg	be
like	pr	like
,	cm	,
namely	adv	namely
this	prn.dem.mf.sg	this
,	cm	,
Thou	prn.subj.p2.mf.sg	thou
shalt	vbmod.pres.p2.sg	shall
love	vblex.inf	love
thy	det.pos.sp	thy
neighbour	n.sg	neighbour
as	pr	as
thyself	prn.ref.p2.mf.sg	yourself
.	sent	.
</s>
<s>
There	adv	there
is	vbser.pres.p3.sg	be
none	prn.ind.nt.sg	none
other	det.ind.sp	other
commandment	n.sg	commandment
greater	adj.sint.comp	great
than	cnjsub	than
these	prn.dem.mf.pl	this
.	sent	.
</s>
</v>
<v at="12:32">
<s>
And	cnjcoo	and
the	det.def.sp	the
scribe	n.sg	scribe
said	vblex.past	say
unto	pr	unto
him	prn.obj.p3.m.sg	him
,	cm	,
Well	adv	well
,	cm	,
Master	adj	master
,	cm	,
thou	prn.subj.p2.mf.sg	thou
hast	vbhaver.pres.p2.sg	have
said	vblex.pp	say
the	det.def.sp	the
truth	n.sg	truth
:	sent	:
</s>
<s>
for	pr	for
there	adv	there
is	vbser.pres.p3.sg	be
one	num.sg	one
God	n.sg	god
;	sent	;
</s>
<s>
and	cnjcoo	and
there	adv	there
is	vbser.pres.p3.sg	be
none	prn.ind.nt.sg	none
other	det.ind.sp	other
but	cnjcoo	but
he	prn.subj.p3.m.sg	he
:	sent	:
</s>
</v>
<v at="12:33">
<s>
And	cnjcoo	and
to	pr	to
love	vblex.inf	love
him	prn.obj.p3.m.sg	him
with	pr	with
all	predet.sp	all
the	det.def.sp	the
heart	n.sg	heart
,	cm	,
and	cnjcoo	and
with	pr	with
all	predet.sp	all
the	det.def.sp	the
understanding	adj	understanding
,	cm	,
and	cnjcoo	and
with	pr	with
all	predet.sp	all
the	det.def.sp	the
soul	n.sg	soul
,	cm	,
and	cnjcoo	and
with	pr	with
all	predet.sp	all
the	det.def.sp	the
strength	n.sg	strength
,	cm	,
and	cnjcoo	and
to	pr	to
love	vblex.inf	love
his	det.pos.sp	his
neighbour	n.sg	neighbour
as	pr	as
himself	prn.ref.p3.m.sg	himself
,	cm	,
is	vbser.pres.p3.sg	be
more	adv	more
than	cnjsub	than
all	predet.sp	all
whole	n.sg	whole
burnt	vblex.past	burn
offerings	n.pl	offering
and	cnjcoo	and
sacrifices	vblex.pres.p3.sg	sacrifice
.	sent	.
</s>
</v>
<v at="12:34">
<s>
And	cnjcoo	and
when	cnjadv	when
Jesus	np.ant.m.sg	Jesus
saw	vblex.past	see
that	cnjsub	that
he	prn.subj.p3.m.sg	he
answered	vblex.past	answer
discreetly	adv	discreetly
,	cm	,
he	prn.subj.p3.m.sg	he
said	vblex.past	say
unto	pr	unto
him	prn.obj.p3.m.sg	him
,	cm	,
Thou	prn.subj.p2.mf.sg	thou
art	vbser.pres.p2.sg	be
not	adv	not
far	adv	far
from	pr	from
the	det.def.sp	the
kingdom	n.sg	kingdom
of	pr	of
God	n.sg	god
.	sent	.
</s>
<s>
And	cnjcoo	and
no	det.ind.sp	no
man	n.sg	man
after that	adv	after that
durst	unknown	durst
ask	vblex.pres	ask
him	prn.obj.p3.m.sg	him
any	det.ind.sp	any
question	n.sg	question
.	sent	.
</s>
</v>
<v at="12:35">
<s>
And	cnjcoo	and
Jesus	np.ant.m.sg	Jesus
answered	vblex.past	answer
and	cnjcoo	and
said	vblex.past	say
,	cm	,
while	cnjadv	while
he	prn.subj.p3.m.sg	he
taught	vblex.past	teach
in	pr	in
the	det.def.sp	the
temple	n.sg	temple
,	cm	,
How	adv	how
say	vblex.pres	say
the	det.def.sp	the
scribes	n.pl	scribe
that	cnjsub	that
Christ	np.ant.m.sg	Christ
is	vbser.pres.p3.sg	be
the	det.def.sp	the
son	n.sg	son
of	pr	of
David	np.cog.sg	David
?	sent	?
</s>
</v>
<v at="12:36">
<s>
For	pr	for
David	np.cog.sg	David
himself	prn.ref.p3.m.sg	himself
said	vblex.pp	say
by	pr	by
the	det.def.sp	the
Holy	adj.sint	holy
Ghost	n.sg	ghost
,	cm	,
The	det.def.sp	the
LORD	n.sg	lord
said	vblex.past	say
to	pr	to
my	det.pos.sp	my
Lord	n.sg	lord
,	cm	,
Sit	vblex.imp	sit
thou	prn.subj.p2.mf.sg	thou
on	pr	on
my	det.pos.sp	my
right	adj	right
hand	n.sg	hand
,	cm	,
till	n.sg	till
I	prn.subj.p1.mf.sg.min	prpers
make	vblex.pres	make
thine	det.pos.sp	thine
enemies	n.pl	enemy
thy	det.pos.sp	thy
footstool	n.sg	footstool
.	sent	.
</s>
</v>
<v at="12:37">
<s>
David	np.ant.m.sg	David
therefore	cnjadv	therefore
himself	prn.ref.p3.m.sg	himself
calleth	unknown	calleth
him	prn.obj.p3.m.sg	him
Lord	n.sg	lord
;	sent	;
</s>
<s>
and	cnjcoo	and
whence	adv.itg	whence
is	vbser.pres.p3.sg	be
he	prn.subj.p3.m.sg	he
then	cnjadv	then
his	det.pos.sp	his
son	n.sg	son
?	sent	?
</s>
<s>
And	cnjcoo	and
the	det.def.sp	the
common	adj	common
people	n.pl	person
heard	vblex.past	hear
him	prn.obj.p3.m.sg	him
gladly	adv	gladly
.	sent	.
</s>
</v>
<v at="12:38">
<s>
And	cnjcoo	and
he	prn.subj.p3.m.sg	he
said	vblex.past	say
unto	pr	unto
them	prn.obj.p3.mf.pl	them
in	pr	in
his	det.pos.sp	his
doctrine	n.sg	doctrine
,	cm	,
Beware	unknown	Beware
of	pr	of
the	det.def.sp	the
scribes	n.pl	scribe
,	cm	,
which	det.itg.sp	which
love	n.sg	love
to	pr	to
go in	vblex.inf	go in
long	adj.sint	long
clothing	n.sg	clothing
,	cm	,
and	cnjcoo	and
love	n.sg	love
salutations	unknown	salutations
in	pr	in
the	det.def.sp	the
marketplaces	n.pl	marketplace
,	cm	,
</v>
<v at="12:39">
And	cnjcoo	and
the	det.def.sp	the
chief	n.sg	chief
seats	n.pl	seat
in	pr	in
the	det.def.sp	the
synagogues	n.pl	synagogue
,	cm	,
and	cnjcoo	and
the	det.def.sp	the
uppermost	adv	uppermost
rooms	n.pl	room
at	pr	at
feasts	n.pl	feast
:	sent	:
</s>
</v>
<v at="12:40">
<s>
Which	prn.itg.mf.sp	which
devour	vblex.pres	devour
widows	n.pl	widow
'	gen	's
houses	n.pl	house
,	cm	,
and	cnjcoo	and
for	pr	for
a	det.ind.sg	a
pretence	n.sg	pretence
make	n.sg	make
long	adj.sint	long
prayers	n.pl	prayer
:	sent	:
</s>
<s>
these	prn.dem.mf.pl	this
shall	vbmod.pres	shall
receive	vblex.inf	receive
greater	adj.sint.comp	great
damnation	unknown	damnation
.	sent	.
</s>
</v>
<v at="12:41">
<s>
And	cnjcoo	and
Jesus	np.ant.m.sg	Jesus
sat	vblex.past	sit
over	adv	over
against	pr	against
the	det.def.sp	the
treasury	n.sg	treasury
,	cm	,
and	cnjcoo	and
beheld	unknown	beheld
how	preadv	how
the	det.def.sp	the
people	n.pl	person
cast	vblex.past	cast
money	n.sg	money
into	pr	into
the	det.def.sp	the
treasury	n.sg	treasury
:	sent	:
</s>
<s>
and	cnjcoo	and
many	prn.ind.mf.pl	many
that	cnjsub	that
were	vbser.past	be
rich	adj.sint	rich
cast	n.sg	cast
in	adv	in
much	adv	much
.	sent	.
</s>
</v>
<v at="12:42">
<s>
And	cnjcoo	and
there	adv	there
came	vblex.past	come
a	det.ind.sg	a
certain	adj	certain
poor	adj.sint	poor
widow	n.sg	widow
,	cm	,
and	cnjcoo	and
she	prn.subj.p3.f.sg	she
threw	vblex.past	throw
in	pr	in
two	num.pl	two
mites	unknown	mites
,	cm	,
which	det.itg.sp	which
make	n.sg	make
a	det.ind.sg	a
farthing	unknown	farthing
.	sent	.
</s>
</v>
<v at="12:43">
<s>
And	cnjcoo	and
he	prn.subj.p3.m.sg	he
called	vblex.past	call
unto	pr	unto
him	prn.obj.p3.m.sg	him
his	adj.pos.pred	his
disciples	n.pl	disciple
,	cm	,
and	cnjcoo	and
saith	vblex.pres.p3.sg	say
unto	pr	unto
them	prn.obj.p3.mf.pl	them
,	cm	,
Verily	adv	verily
I	prn.subj.p1.mf.sg.min	prpers
say	vblex.pres	say
unto	pr	unto
you	prn.obj.p2.mf.sp	you
,	cm	,
That	cnjsub	that
this	det.dem.sg	this
poor	adj.sint	poor
widow	n.sg	widow
hath	vbhaver.pres.p3.sg	have
cast	vblex.past	cast
more	adv	more
in	adv	in
,	cm	,
than	cnjsub	than
all	predet.sp	all
they	prn.subj.p3.mf.pl	they
which	prn.itg.mf.sp	which
have	vbhaver.inf	have
cast	vblex.pp	cast
into	pr	into
the	det.def.sp	the
treasury	n.sg	treasury
:	sent	:
</s>
</v>
<v at="12:44">
<s>
For	pr	for
all	prn.qnt.mf.sp	all
they	prn.subj.p3.mf.pl	they
did	vbdo.past	do
cast	vblex.inf	cast
in	adv	in
of	pr	of
their	det.pos.sp	their
abundance	n.sg	abundance
;	sent	;
</s>
<s>
but	cnjcoo	but
she	prn.subj.p3.f.sg	she
of	pr	of
her	prn.obj.p3.f.sg	her
want	vblex.pres	want
did	vbdo.past	do
cast	vblex.inf	cast
in	pr	in
all	predet.sp	all
that	cnjsub	that
she	prn.subj.p3.f.sg	she
had	vblex.past	have
,	cm	,
even	adv	even
all	predet.sp	all
her	prn.obj.p3.f.sg	her
living	vblex.subs	live
.	sent	.
</s>
</v>
<v at="13:1">
<s>
And	cnjcoo	and
as	cnjadv	as
he	prn.subj.p3.m.sg	he
went out	vblex.past	go out
of	pr	of
the	det.def.sp	the
temple	n.sg	temple
,	cm	,
one	prn.dem.mf.sg	one
of	pr	of
his	adj.pos.pred	his
disciples	n.pl	disciple
saith	vblex.pres.p3.sg	say
unto	pr	unto
him	prn.obj.p3.m.sg	him
,	cm	,
Master	n.sg	master
,	cm	,
see	vblex.imp	see
what	det.itg.sp	what
manner	n.sg	manner
of	pr	of
stones	n.pl	stone
and	cnjcoo	and
what	det.itg.sp	what
buildings	n.pl	building
are	vbser.pres	be
here	adv	here
!	sent	!
</s>
</v>
<v at="13:2">
<s>
And	cnjcoo	and
Jesus	np.ant.m.sg	Jesus
answering	vblex.subs	answer
said	vblex.past	say
unto	pr	unto
him	prn.obj.p3.m.sg	him
,	cm	,
Seest	unknown	Seest
thou	prn.subj.p2.mf.sg	thou
these	det.dem.pl	this
great	adj.sint	great
buildings	n.pl	building
?	sent	?
</s>
<s>
there	adv	there
shall	vbmod.pres	shall
not	adv	not
be left	vblex.inf	be left
one	num.sg	one
stone	vblex.inf	stone
upon	pr	upon
another	prn.ind.mf.sg	another
,	cm	,
that	cnjsub	that
shall	vbmod.pres	shall
not	adv	not
be	vbser.inf	be
thrown	vblex.pp	throw
down	adv	down
.	sent	.
</s>
</v>
<v at="13:3">
<s>
And	cnjcoo	and
as	cnjadv	as
he	prn.subj.p3.m.sg	he
sat	vblex.past	sit
upon	pr	upon
the	det.def.sp	the
mount	n.sg	mount
of	pr	of
Olives	n.pl	olive
over	adv	over
against	pr	against
the	det.def.sp	the
temple	n.sg	temple
,	cm	,
Peter	np.ant.m.sg	Peter
and	cnjcoo	and
James	np.cog.sg	James
and	cnjcoo	and
John	np.ant.m.sg	John
and	cnjcoo	and
Andrew	np.ant.m.sg	Andrew
asked	vblex.past	ask
him	prn.obj.p3.m.sg	him
privately	adv	privately
,	cm	,
</v>
<v at="13:4">
Tell	vblex.inf	tell
us	prn.obj.p1.mf.pl	us
,	cm	,
when	cnjadv	when
shall	vbmod.pres	shall
these	det.dem.pl	this
things	n.pl	thing
be	vbser.inf	be
?	sent	?
</s>
<s>
and	cnjcoo	and
what	prn.rel.nn.mf.sg	what
shall	vbmod.pres	shall
be	vbser.inf	be
the	det.def.sp	the
sign	n.sg	sign
when	cnjadv	when
all	prn.qnt.mf.sp	all
these	det.dem.pl	this
things	n.pl	thing
shall	vbmod.pres	shall
be	vbser.inf	be
fulfilled	vblex.pp	fulfil
?	sent	?
</s>
</v>
<v at="13:5">
<s>
And	cnjcoo	and
Jesus	np.ant.m.sg	Jesus
answering	vblex.ger	answer
them	prn.obj.p3.mf.pl	them
began	vblex.past	begin
to	pr	to
say	vblex.inf	say
,	cm	,
Take	vblex.imp	take
heed	unknown	heed
lest	unknown	lest
any	det.ind.sp	any
man	n.sg	man
deceive	vblex.pres	deceive
you	prn.obj.p2.mf.sp	you
:	sent	:
</s>
</v>
<v at="13:6">
<s>
For	pr	for
many	prn.ind.mf.pl	many
shall	vbmod.pres	shall
come in	vblex.inf	come in
my	det.pos.sp	my
name	n.sg	name
,	cm	,
saying	vblex.pprs	say
,	cm	,
I	prn.subj.p1.mf.sg.min	prpers
am	vbser.pres.p1.sg	be
Christ	np.ant.m.sg	Christ
;	sent	;
</s>
<s>
and	cnjcoo	and
shall	vbmod.pres	shall
deceive	vblex.inf	deceive
many	prn.ind.mf.pl	many
.	sent	.
</s>
</v>
<v at="13:7">
<s>
And	cnjcoo	and
when	cnjadv	when
ye	prn.subj.p2.mf.pl	ye
shall	vbmod.pres	shall
hear	vblex.inf	hear
of	pr	of
wars	n.pl	war
and	cnjcoo	and
rumours	n.pl	rumour
of	pr	of
wars	n.pl	war
,	cm	,
be	vbser.inf	be
ye	prn.subj.p2.mf.pl	ye
not	adv	not
troubled	vblex.pp	trouble
:	sent	:
</s>
<s>
for	pr	for
such	det.ind.sp	such
things	n.pl	thing
must	vbmod.pres	must
needs	vblex.pres.p3.sg	need
be	vbser.inf	be
;	sent	;
</s>
<s>
but	cnjcoo	but
the	det.def.sp	the
end	n.sg	end
shall	vbmod.pres	shall
not	adv	not
be	vbser.inf	be
yet	cnjadv	yet
.	sent	.
</s>
</v>
<v at="13:8">
<s>
For	pr	for
nation	n.sg	nation
shall	vbmod.pres	shall
rise	vblex.inf	rise
against	pr	against
nation	n.sg	nation
,	cm	,
and	cnjcoo	and
kingdom	n.sg	kingdom
against	pr	against
kingdom	n.sg	kingdom
:	sent	:
</s>
<s>
and	cnjcoo	and
there	adv	there
shall	vbmod.pres	shall
be	vbser.inf	be
earthquakes	n.pl	earthquake
in	pr	in
divers	n.pl	diver
places	n.pl	place
,	cm	,
and	cnjcoo	and
there	adv	there
shall	vbmod.pres	shall
be	vbser.inf	be
famines	n.pl	famine
and	cnjcoo	and
troubles	vblex.pres.p3.sg	trouble
:	sent	:
</s>
<s>
these	prn.dem.mf.pl	this
are	vbser.pres	be
the	det.def.sp	the
beginnings	n.pl	beginning
of	pr	of
sorrows	n.pl	sorrow
.	sent	.
</s>
</v>
<v at="13:9">
<s>
But	cnjcoo	but
take	vblex.inf	take
heed	unknown	heed
to	pr	to
yourselves	prn.ref.p2.mf.pl	yourselves
:	sent	:
</s>
<s>
for	pr	for
they	prn.subj.p3.mf.pl	they
shall	vbmod.pres	shall
deliver	vblex.inf	deliver
you	prn.obj.p2.mf.sp	you
up to	pr	up to
councils	n.pl	council
;	sent	;
</s>
<s>
and	cnjcoo	and
in	pr	in
the	det.def.sp	the
synagogues	n.pl	synagogue
ye	prn.subj.p2.mf.pl	ye
shall	vbmod.pres	shall
be	vbser.inf	be
beaten	vblex.pp	beat
:	sent	:
</s>
<s>
and	cnjcoo	and
ye	prn.subj.p2.mf.pl	ye
shall	vbmod.pres	shall
be	vbser.inf	be
brought	vblex.pp	bring
before	pr	before
rulers	n.pl	ruler
and	cnjcoo	and
kings	n.pl	king
for	pr	for
my	det.pos.sp	my
sake	n.sg	sake
,	cm	,
for	pr	for
a	det.ind.sg	a
testimony	n.sg	testimony
against	pr	against
them	prn.obj.p3.mf.pl	them
.	sent	.
</s>
</v>
<v at="13:10">
<s>
And	cnjcoo	and
the	det.def.sp	the
gospel	n.sg	gospel
must	vbmod.pres	must
first	adj.ord	first
be	vbser.inf	be
published	vblex.pp	publish
among	pr	among
all	predet.sp	all
nations	n.pl	nation
.	sent	.
</s>
</v>
<v at="13:11">
<s>
But	cnjcoo	but
when	cnjadv	when
they	prn.subj.p3.mf.pl	they
shall	vbmod.pres	shall
lead	vblex.inf	lead
you	prn.obj.p2.mf.sp	you
,	cm	,
and	cnjcoo	and
deliver	vblex.pres	deliver
you	prn.obj.p2.mf.sp	you
up	adv	up
,	cm	,
take	vblex.imp	take
no	det.ind.sp	no
thought	n.sg	thought
beforehand	adv	beforehand
what	prn.rel.nn.mf.sg	what
ye	prn.subj.p2.mf.pl	ye
shall	vbmod.pres	shall
speak	vblex.inf	speak
,	cm	,
neither	cnjcoo	neither
do	vblex.inf	do
ye	prn.subj.p2.mf.pl	ye
premeditate	unknown	premeditate
:	sent	:
</s>
<s>
but	cnjcoo	but
whatsoever	prn.rel	whatsoever
shall	vbmod.pres	shall
be	vbser.inf	be
given	vblex.pp	give
you	prn.obj.p2.mf.sp	you
in	pr	in
that	det.dem.sg	that
hour	n.sg	hour
,	cm	,
that	prn.rel.an.mf.sp	that
speak	vblex.pres	speak
ye	prn.subj.p2.mf.pl	ye
:	sent	:
</s>
<s>
for	pr	for
it	prn.subj.p3.nt.sg	it
is	vbser.pres.p3.sg	be
not	adv	not
ye	prn.subj.p2.mf.pl	ye
that	cnjsub	that
speak	vblex.pres	speak
,	cm	,
but	cnjcoo	but
the	det.def.sp	the
Holy	adj.sint	holy
Ghost	n.sg	ghost
.	sent	.
</s>
</v>
<v at="13:12">
<s>
Now	adv	now
the	det.def.sp	the
brother	n.sg	brother
shall	vbmod.pres	shall
betray	vblex.inf	betray
the	det.def.sp	the
brother	n.sg	brother
to	pr	to
death	n.sg	death
,	cm	,
and	cnjcoo	and
the	det.def.sp	the
father	n.sg	father
the	det.def.sp	the
son	n.sg	son
;	sent	;
</s>
<s>
and	cnjcoo	and
children	n.pl	child
shall	vbmod.pres	shall
rise	vblex.inf	rise
up	adv	up
against	pr	against
their	det.pos.sp	their
parents	n.pl	parent
,	cm	,
and	cnjcoo	and
shall	vbmod.pres	shall
cause	vblex.inf	cause
them	prn.obj.p3.mf.pl	them
to	pr	to
be	vbser.inf	be
put	vblex.pp	put
to	pr	to
death	n.sg	death
.	sent	.
</s>
</v>
<v at="13:13">
<s>
And	cnjcoo	and
ye	prn.subj.p2.mf.pl	ye
shall	vbmod.pres	shall
be	vbser.inf	be
hated	vblex.pp	hate
of	pr	of
all	predet.sp	all
men	n.pl	man
for	pr	for
my	det.pos.sp	my
name	n.sg	name
's	gen	's
sake	n.sg	sake
:	sent	:
</s>
<s>
but	cnjcoo	but
he	prn.subj.p3.m.sg	he
that	cnjsub	that
shall	vbmod.pres	shall
endure	vblex.inf	endure
unto	pr	unto
the	det.def.sp	the
end	n.sg	end
,	cm	,
the same	adv	the same
shall	vbmod.pres	shall
be	vbser.inf	be
saved	vblex.pp	save
.	sent	.
</s>
</v>
<v at="13:14">
<s>
But	cnjcoo	but
when	cnjadv	when
ye	prn.subj.p2.mf.pl	ye
shall	vbmod.pres	shall
see	vblex.inf	see
the	det.def.sp	the
abomination	n.sg	abomination
of	pr	of
desolation	n.sg	desolation
,	cm	,
spoken	vblex.pp	speak
of	pr	of
by	pr	by
Daniel	np.ant.m.sg	Daniel
the	det.def.sp	the
prophet	n.sg	prophet
,	cm	,
standing	vblex.pprs	stand
where	adv	where
it	prn.obj.p3.nt.sg	it
ought	unknown	ought
not	adv	not
,	cm	,
(	lpar	(
let	vblex.past	let
him	prn.obj.p3.m.sg	him
that	cnjsub	that
readeth	unknown	readeth
understand	vblex.pres	understand
,	cm	,
)	rpar	)
then	cnjadv	then
let	vblex.past	let
them	prn.obj.p3.mf.pl	them
that	cnjsub	that
be	vbser.inf	be
in	adv	in
Judaea	unknown	Judaea
flee	vblex.pres	flee
to	pr	to
the	det.def.sp	the
mountains	n.pl	mountain
:	sent	:
</s>
</v>
<v at="13:15">
<s>
And	cnjcoo	and
let	vblex.past	let
him	prn.obj.p3.m.sg	him
that	prn.rel.an.mf.sp	that
is	vbser.pres.p3.sg	be
on	adv	on
the	det.def.sp	the
housetop	unknown	housetop
not	adv	not
go down	vblex.pres	go down
into	pr	into
the	det.def.sp	the
house	n.sg	house
,	cm	,
neither	cnjcoo	neither
enter	vblex.pres	enter
therein	unknown	therein
,	cm	,
to	pr	to
take	vblex.inf	take
any	det.ind.sp	any
thing	n.sg	thing
out of	pr	out of
his	det.pos.sp	his
house	n.sg	house
:	sent	:
</s>
</v>
<v at="13:16">
<s>
And	cnjcoo	and
let	vblex.past	let
him	prn.obj.p3.m.sg	him
that	prn.rel.an.mf.sp	that
is	vbser.pres.p3.sg	be
in	pr	in
the	det.def.sp	the
field	n.sg	field
not	adv	not
turn	vblex.inf	turn
back	adj	back
again	adv	again
for	pr	for
to	pr	to
take	vblex.inf	take
up	pr	up
his	det.pos.sp	his
garment	n.sg	garment
.	sent	.
</s>
</v>
<v at="13:17">
<s>
But	cnjcoo	but
woe	unknown	woe
to	pr	to
them	prn.obj.p3.mf.pl	them
that	cnjsub	that
are	vbser.pres	be
with	pr	with
child	n.sg	child
,	cm	,
and	cnjcoo	and
to	pr	to
them	prn.obj.p3.mf.pl	them
that	cnjsub	that
give	vblex.pres	give
suck	vblex.inf	suck
in	pr	in
those	det.dem.pl	that
days	n.pl	day
!	sent	!
</s>
</v>
<v at="13:18">
<s>
And	cnjcoo	and
pray	vblex.pres	pray
ye	prn.subj.p2.mf.pl	ye
that	cnjsub	that
your	det.pos.sp	your
flight	n.sg	flight
be	vbser.inf	be
not	adv	not
in the winter	adv	in the winter
.	sent	.
</s>
</v>
<v at="13:19">
<s>
For	pr	for
in	pr	in
those	det.dem.pl	that
days	n.pl	day
shall	vbmod.pres	shall
be	vbser.inf	be
affliction	n.sg	affliction
,	cm	,
such as	pr	such as
was	vbser.past.p3.sg	be
not	adv	not
from the beginning	adv	from the beginning
of	pr	of
the	det.def.sp	the
creation	n.sg	creation
which	det.itg.sp	which
God	n.sg	god
created	vblex.past	create
unto	pr	unto
this time	adv	this time
,	cm	,
neither	cnjcoo	neither
shall	vbmod.pres	shall
be	vbser.inf	be
.	sent	.
</s>
</v>
<v at="13:20">
<s>
And	cnjcoo	and
except	pr	except
that	cnjsub	that
the	det.def.sp	the
Lord	n.sg	lord
had	vbhaver.past	have
shortened	vblex.pp	shorten
those	det.dem.pl	that
days	n.pl	day
,	cm	,
no	det.ind.sp	no
flesh	n.sg	flesh
should	vbmod.past	shall
be	vbser.inf	be
saved	vblex.pp	save
:	sent	:
</s>
<s>
but	cnjcoo	but
for	pr	for
the	det.def.sp	the
elect	adj	elect
's	vbhaver.pres.p3.sg	have
sake	n.sg	sake
,	cm	,
whom	prn.rel.an.mf.sp	whom
he	prn.subj.p3.m.sg	he
hath	vbhaver.pres.p3.sg	have
chosen	vblex.pp	choose
,	cm	,
he	prn.subj.p3.m.sg	he
hath	vbhaver.pres.p3.sg	have
shortened	vblex.past	shorten
the	det.def.sp	the
days	n.pl	day
.	sent	.
</s>
</v>
<v at="13:21">
<s>
And	cnjcoo	and
then	cnjadv	then
if	cnjsub	if
any	det.ind.sp	any
man	n.sg	man
shall	vbmod.pres	shall
say	vblex.inf	say
to	pr	to
you	prn.obj.p2.mf.sp	you
,	cm	,
Lo	adv	lo
,	cm	,
here	adv	here
is	vbser.pres.p3.sg	be
Christ	np.ant.m.sg	Christ
;	sent	;
</s>
<s>
or	cnjcoo	or
,	cm	,
lo	adv	lo
,	cm	,
he	prn.subj.p3.m.sg	he
is	vbser.pres.p3.sg	be
there	adv	there
;	sent	;
</s>
<s>
believe	vblex.imp	believe
him	prn.obj.p3.m.sg	him
not	adv	not
:	sent	:
</s>
</v>
<v at="13:22">
<s>
For	pr	for
false	adj.sint	false
Christs	unknown	Christs
and	cnjcoo	and
false	adj.sint	false
prophets	n.pl	prophet
shall	vbmod.pres	shall
rise	vblex.inf	rise
,	cm	,
and	cnjcoo	and
shall	vbmod.pres	shall
shew	unknown	shew
signs	n.pl	sign
and	cnjcoo	and
wonders	n.pl	wonder
,	cm	,
to	pr	to
seduce	vblex.inf	seduce
,	cm	,
if	cnjsub	if
it	prn.subj.p3.nt.sg	it
were	vbser.past	be
possible	adj	possible
,	cm	,
even	adv	even
the	det.def.sp	the
elect	adj	elect
.	sent	.
</s>
</v>
<v at="13:23">
<s>
But	cnjcoo	but
take	vblex.inf	take
ye	prn.subj.p2.mf.pl	ye
heed	unknown	heed
:	sent	:
</s>
<s>
behold	vblex.imp	behold
,	cm	,
I	prn.subj.p1.mf.sg.min	prpers
have	vblex.pres	have
foretold	unknown	foretold
you all	prn.subj.p2.mf.pl	you all
things	n.pl	thing
.	sent	.
</s>
</v>
<v at="13:24">
<s>
But	cnjcoo	but
in	pr	in
those	det.dem.pl	that
days	n.pl	day
,	cm	,
after that	adv	after that
tribulation	unknown	tribulation
,	cm	,
the	det.def.sp	the
sun	n.sg	sun
shall	vbmod.pres	shall
be	vbser.inf	be
darkened	vblex.pp	darken
,	cm	,
and	cnjcoo	and
the	det.def.sp	the
moon	n.sg	moon
shall	vbmod.pres	shall
not	adv	not
give	vblex.inf	give
her	det.pos.sp	her
light	n.sg	light
,	cm	,
</v>
<v at="13:25">
And	cnjcoo	and
the	det.def.sp	the
stars	n.pl	star
of	pr	of
heaven	n.sg	heaven
shall	vbmod.pres	shall
fall	vblex.inf	fall
,	cm	,
and	cnjcoo	and
the	det.def.sp	the
powers	n.pl	power
that	prn.rel.an.mf.sp	that
are	vbser.pres	be
in	pr	in
heaven	n.sg	heaven
shall	vbmod.pres	shall
be	vbser.inf	be
shaken	vblex.pp	shake
.	sent	.
</s>
</v>
<v at="13:26">
<s>
And	cnjcoo	and
then	cnjadv	then
shall	vbmod.pres	shall
they	prn.subj.p3.mf.pl	they
see	vblex.inf	see
the	det.def.sp	the
Son	n.sg	son
of	pr	of
man	n.sg	man
coming in	vblex.ger	come in
the	det.def.sp	the
clouds	n.pl	cloud
with	pr	with
great	adj.sint	great
power	n.sg	power
and	cnjcoo	and
glory	n.sg	glory
.	sent	.
</s>
</v>
<v at="13:27">
<s>
And	cnjcoo	and
then	cnjadv	then
shall	vbmod.pres	shall
he	prn.subj.p3.m.sg	he
send	vblex.inf	send
his	adj.pos.pred	his
angels	n.pl	angel
,	cm	,
and	cnjcoo	and
shall	vbmod.pres	shall
gather	vblex.inf	gather
together	adj	together
his	det.pos.sp	his
elect	vblex.pres	elect
from	pr	from
the	det.def.sp	the
four	num.pl	four
winds	n.pl	wind
,	cm	,
from	pr	from
the	det.def.sp	the
uttermost	adj	uttermost
part	n.sg	part
of	pr	of
the	det.def.sp	the
earth	n.sg	earth
to	pr	to
the	det.def.sp	the
uttermost	adj	uttermost
part	n.sg	part
of	pr	of
heaven	n.sg	heaven
.	sent	.
</s>
</v>
<v at="13:28">
<s>
Now	adv	now
learn	vblex.imp	learn
a	det.ind.sg	a
parable	n.sg	parable
of	pr	of
the	det.def.sp	the
fig	n.sg	fig
tree	n.sg	tree
;	sent	;
</s>
<s>
When	adv.itg	when
her	det.pos.sp	her
branch	n.sg	branch
is	vbser.pres.p3.sg	be
yet	cnjadv	yet
tender	adj.sint	tender
,	cm	,
and	cnjcoo	and
putteth	unknown	putteth
forth	adv	forth
leaves	n.pl	leaf
,	cm	,
ye	prn.subj.p2.mf.pl	ye
know	vblex.pres	know
that	cnjsub	that
summer	n.sg	summer
is	vbser.pres.p3.sg	be
near	adj.sint	near
:	sent	:
</s>
</v>
<v at="13:29">
<s>
So	cnjadv	so
ye	prn.subj.p2.mf.pl	ye
in like manner	adv	in like manner
,	cm	,
when	cnjadv	when
ye	prn.subj.p2.mf.pl	ye
shall	vbmod.pres	shall
see	vblex.inf	see
these	det.dem.pl	this
things	n.pl	thing
come	vblex.pp	come
to	pr	to
pass	vblex.inf	pass
,	cm	,
know	vblex.imp	know
that	cnjsub	that
it	prn.subj.p3.nt.sg	it
is	vbser.pres.p3.sg	be
nigh	unknown	nigh
,	cm	,
even	adv	even
at	pr	at
the	det.def.sp	the
doors	n.pl	door
.	sent	.
</s>
</v>
<v at="13:30">
<s>
Verily	adv	verily
I	prn.subj.p1.mf.sg.min	prpers
say	vblex.pres	say
unto	pr	unto
you	prn.obj.p2.mf.sp	you
,	cm	,
that	cnjsub	that
this	det.dem.sg	this
generation	n.sg	generation
shall	vbmod.pres	shall
not	adv	not
pass	vblex.inf	pass
,	cm	,
till	n.sg	till
all	prn.qnt.mf.sp	all
these	det.dem.pl	this
things	n.pl	thing
be	vbser.inf	be
done	vblex.pp	do
.	sent	.
</s>
</v>
<v at="13:31">
<s>
Heaven	n.sg	heaven
and	cnjcoo	and
earth	n.sg	earth
shall	vbmod.pres	shall
pass	vblex.inf	pass
away	adv	away
:	sent	:
</s>
<s>
but	cnjcoo	but
my	det.pos.sp	my
words	n.pl	word
shall	vbmod.pres	shall
not	adv	not
pass	vblex.inf	pass
away	adv	away
.	sent	.
</s>
</v>
<v at="13:32">
<s>
But	cnjcoo	but
of	pr	of
that	det.dem.sg	that
day	n.sg	day
and	cnjcoo	and
that	det.dem.sg	that
hour	n.sg	hour
knoweth	unknown	knoweth
no	det.ind.sp	no
man	n.sg	man
,	cm	,
no	adv	no
,	cm	,
not	adv	not
the	det.def.sp	the
angels	n.pl	angel
which	prn.itg.mf.sp	which
are	vbser.pres	be
in	pr	in
heaven	n.sg	heaven
,	cm	,
neither	cnjcoo	neither
the	det.def.sp	the
Son	n.sg	son
,	cm	,
but	cnjcoo	but
the	det.def.sp	the
Father	n.sg	father
.	sent	.
</s>
</v>
<v at="13:33">
<s>
Take	vblex.imp	take
ye	prn.subj.p2.mf.pl	ye
heed	unknown	heed
,	cm	,
watch	vblex.imp	watch
and	cnjcoo	and
pray	vblex.pres	pray
:	sent	:
</s>
<s>
for	pr	for
ye	prn.subj.p2.mf.pl	ye
know	vblex.pres	know
not	adv	not
when	cnjadv	when
the	det.def.sp	the
time	n.sg	time
is	vbser.pres.p3.sg	be
.	sent	.
</s>
</v>
<v at="13:34">
<s>
For	pr	for
the	det.def.sp	the
Son	n.sg	son
of	pr	of
man	n.sg	man
is	vbser.pres.p3.sg	be
as a	pr	as a
man	n.sg	man
taking	vblex.pprs	take
a	det.ind.sg	a
far	adj.sint	far
journey	n.sg	journey
,	cm	,
who	prn.rel.an.mf.sp	who
left	vblex.past	leave
his	det.pos.sp	his
house	n.sg	house
,	cm	,
and	cnjcoo	and
gave	vblex.past	give
authority	n.sg	authority
to	pr	to
his	adj.pos.pred	his
servants	n.pl	servant
,	cm	,
and	cnjcoo	and
to	pr	to
every	det.ind.sg	every
man	n.sg	man
his	det.pos.sp	his
work	n.sg	work
,	cm	,
and	cnjcoo	and
commanded	vblex.past	command
the	det.def.sp	the
porter	n.sg	porter
to	pr	to
watch	n.sg	watch
.	sent	.
</s>
</v>
<v at="13:35">
<s>
Watch	n.sg	watch
ye	prn.subj.p2.mf.pl	ye
therefore	cnjadv	therefore
:	sent	:
</s>
<s>
for	pr	for
ye	prn.subj.p2.mf.pl	ye
know	vblex.pres	know
not	adv	not
when	cnjadv	when
the	det.def.sp	the
master	n.sg	master
of	pr	of
the	det.def.sp	the
house	n.sg	house
cometh	vblex.pres.p3.sg	come
,	cm	,
at	pr	at
even	adv	even
,	cm	,
or	cnjcoo	or
at midnight	adv	at midnight
,	cm	,
or	cnjcoo	or
at	pr	at
the	det.def.sp	the
cockcrowing	unknown	cockcrowing
,	cm	,
or	cnjcoo	or
in the morning	adv	in the morning
:	sent	:
</s>
</v>
<v at="13:36">
<s>
Lest	unknown	Lest
coming	vblex.ger	come
suddenly	adv	suddenly
he	prn.subj.p3.m.sg	he
find	vblex.pres	find
you	prn.obj.p2.mf.sp	you
sleeping	vblex.subs	sleep
.	sent	.
</s>
</v>
<v at="13:37">
<s>
And	cnjcoo	and
what	prn.rel.nn.mf.sg	what
I	prn.subj.p1.mf.sg.min	prpers
say	vblex.pres	say
unto	pr	unto
you	prn.obj.p2.mf.sp	you
I	prn.subj.p1.mf.sg.min	prpers
say	vblex.pres	say
unto	pr	unto
all	prn.qnt.mf.sp	all
,	cm	,
Watch	n.sg	watch
.	sent	.
</s>
</v>
<v at="14:1">
<s>
After	pr	after
two	num.pl	two
days	n.pl	day
was	vbser.past.p1.sg	be
the	det.def.sp	the
feast	n.sg	feast
of	pr	of
the	det.def.sp	the
passover	unknown	passover
,	cm	,
and	cnjcoo	and
of	pr	of
unleavened	unknown	unleavened
bread	n.sg	bread
:	sent	:
</s>
<s>
and	cnjcoo	and
the	det.def.sp	the
chief	n.sg	chief
priests	n.pl	priest
and	cnjcoo	and
the	det.def.sp	the
scribes	n.pl	scribe
sought	vblex.past	seek
how	adv.itg	how
they	prn.subj.p3.mf.pl	they
might	vbmod.pres	might
take	vblex.inf	take
him	prn.obj.p3.m.sg	him
by	pr	by
craft	n.pl	craft
,	cm	,
and	cnjcoo	and
put	vblex.past	put
him	prn.obj.p3.m.sg	him
to	pr	to
death	n.sg	death
.	sent	.
</s>
</v>
<v at="14:2">
<s>
But	cnjcoo	but
they	prn.subj.p3.mf.pl	they
said	vblex.past	say
,	cm	,
Not	adv	not
on	pr	on
the	det.def.sp	the
feast	n.sg	feast
day	n.sg	day
,	cm	,
lest	unknown	lest
there	adv	there
be	vbser.inf	be
an	det.ind.sg	a
uproar	n.sg	uproar
of	pr	of
the	det.def.sp	the
people	n.pl	person
.	sent	.
</s>
</v>
<v at="14:3">
<s>
And	cnjcoo	and
being	vbser.subs	be
in	pr	in
Bethany	np.ant.f.sg	Bethany
in	pr	in
the	det.def.sp	the
house	n.sg	house
of	pr	of
Simon	np.ant.m.sg	Simon
the	det.def.sp	the
leper	unknown	leper
,	cm	,
as	cnjadv	as
he	prn.subj.p3.m.sg	he
sat	vblex.past	sit
at	pr	at
meat	n.sg	meat
,	cm	,
there	adv	there
came	vblex.past	come
a	det.ind.sg	a
woman	n.sg	woman
having	vblex.ger	have
an	det.ind.sg	a
alabaster	n.sg	alabaster
box	n.sg	box
of	pr	of
ointment	n.sg	ointment
of	pr	of
spikenard	unknown	spikenard
very	preadv	very
precious	adj	precious
;	sent	;
</s>
<s>
and	cnjcoo	and
she	prn.subj.p3.f.sg	she
brake	vblex.pres	brake
the	det.def.sp	the
box	n.pl	box
,	cm	,
and	cnjcoo	and
poured	vblex.past	pour
it	prn.obj.p3.nt.sg	it
on	pr	on
his	det.pos.sp	his
head	n.sg	head
.	sent	.
</s>
</v>
<v at="14:4">
<s>
And	cnjcoo	and
there	adv	there
were	vbser.past	be
some	prn.ind.mf.pl	some
that	cnjsub	that
had	vblex.past	have
indignation	n.sg	indignation
within	pr	within
themselves	prn.ref.p3.mf.pl	themselves
,	cm	,
and	cnjcoo	and
said	vblex.past	say
,	cm	,
Why	adv.itg	why
was	vbser.past.p3.sg	be
this	det.dem.sg	this
waste	n.sg	waste
of	pr	of
the	det.def.sp	the
ointment	n.sg	ointment
made	vblex.past	make
?	sent	?
</s>
</v>
<v at="14:5">
<s>
For	pr	for
it	prn.obj.p3.nt.sg	it
might	vbmod.pres	might
have	vbhaver.inf	have
been	vbser.pp	be
sold	vblex.pp	sell
for	pr	for
more	adv	more
than	cnjsub	than
three hundred	num.pl	three hundred
pence	n.pl	penny
,	cm	,
and	cnjcoo	and
have	vbhaver.pres	have
been	vbser.pp	be
given	vblex.pp	give
to	pr	to
the	det.def.sp	the
poor	adj.sint	poor
.	sent	.
</s>
<s>
And	cnjcoo	and
they	prn.subj.p3.mf.pl	they
murmured	unknown	murmured
against	pr	against
her	prn.obj.p3.f.sg	her
.	sent	.
</s>
</v>
<v at="14:6">
<s>
And	cnjcoo	and
Jesus	np.ant.m.sg	Jesus
said	vblex.past	say
,	cm	,
Let	vblex.imp	let
her	prn.obj.p3.f.sg	her
alone	adj	alone
;	sent	;
</s>
<s>
why	adv.itg	why
trouble	n.sg	trouble
ye	prn.subj.p2.mf.pl	ye
her	prn.obj.p3.f.sg	her
?	sent	?
</s>
<s>
she	prn.subj.p3.f.sg	she
hath	vbhaver.pres.p3.sg	have
wrought	unknown	wrought
a	det.ind.sg	a
good	adj.sint	good
work	n.sg	work
on	pr	on
me	prn.obj.p1.mf.sg	me
.	sent	.
</s>
</v>
<v at="14:7">
<s>
For	pr	for
ye	prn.subj.p2.mf.pl	ye
have	vblex.pres	have
the	det.def.sp	the
poor	adj.sint	poor
with	pr	with
you	prn.obj.p2.mf.sp	you
always	adv	always
,	cm	,
and	cnjcoo	and
whensoever	unknown	whensoever
ye	prn.subj.p2.mf.pl	ye
will	vbmod.pres	will
ye	prn.subj.p2.mf.pl	ye
may	vbmod.pres	may
do	vblex.inf	do
them	prn.obj.p3.mf.pl	them
good	n.sg	good
:	sent	:
</s>
<s>
but	cnjcoo	but
me	prn.obj.p1.mf.sg	me
ye	prn.subj.p2.mf.pl	ye
have	vblex.pres	have
not	adv	not
always	adv	always
.	sent	.
</s>
</v>
<v at="14:8">
<s>
She	prn.subj.p3.f.sg	prpers
hath	vbhaver.pres.p3.sg	have
done	vblex.pp	do
what	prn.rel.nn.mf.sg	what
she	prn.subj.p3.f.sg	she
could	vbmod.past	can
:	sent	:
</s>
<s>
she	prn.subj.p3.f.sg	she
is	vbser.pres.p3.sg	be
come	vblex.pp	come
aforehand	unknown	aforehand
to	pr	to
anoint	vblex.inf	anoint
my	det.pos.sp	my
body	n.sg	body
to	pr	to
the	det.def.sp	the
burying	vblex.subs	bury
.	sent	.
</s>
</v>
<v at="14:9">
<s>
Verily	adv	verily
I	prn.subj.p1.mf.sg.min	prpers
say	vblex.pres	say
unto	pr	unto
you	prn.obj.p2.mf.sp	you
,	cm	,
Wheresoever	unknown	Wheresoever
this	det.dem.sg	this
gospel	n.sg	gospel
shall	vbmod.pres	shall
be	vbser.inf	be
preached	vblex.pp	preach
throughout	pr	throughout
the	det.def.sp	the
whole	adj	whole
world	n.sg	world
,	cm	,
this	prn.dem.mf.sg	this
also	adv	also
that	cnjsub	that
she	prn.subj.p3.f.sg	she
hath	vbhaver.pres.p3.sg	have
done	vblex.pp	do
shall	vbmod.pres	shall
be	vbser.inf	be
spoken	vblex.pp	speak
of	pr	of
for	pr	for
a	det.ind.sg	a
memorial	n.sg	memorial
of	pr	of
her	prn.obj.p3.f.sg	her
.	sent	.
</s>
</v>
<v at="14:10">
<s>
And	cnjcoo	and
Judas	np.ant.m.sg	Judas
Iscariot	unknown	Iscariot
,	cm	,
one	prn.dem.mf.sg	one
of	pr	of
the	det.def.sp	the
twelve	num.pl	twelve
,	cm	,
went	vblex.past	go
unto	pr	unto
the	det.def.sp	the
chief	n.sg	chief
priests	n.pl	priest
,	cm	,
to	pr	to
betray	vblex.inf	betray
him	prn.obj.p3.m.sg	him
unto	pr	unto
them	prn.obj.p3.mf.pl	them
.	sent	.
</s>
</v>
<v at="14:11">
<s>
And	cnjcoo	and
when	cnjadv	when
they	prn.subj.p3.mf.pl	they
heard	vblex.past	hear
it	prn.obj.p3.nt.sg	it
,	cm	,
they	prn.subj.p3.mf.pl	they
were	vbser.past	be
glad	adj.sint	glad
,	cm	,
and	cnjcoo	and
promised	vblex.past	promise
to	pr	to
give	vblex.inf	give
him	prn.obj.p3.m.sg	him
money	n.sg	money
.	sent	.
</s>
<s>
And	cnjcoo	and
he	prn.subj.p3.m.sg	he
sought	vblex.past	seek
how	adv.itg	how
he	prn.subj.p3.m.sg	he
might	vbmod.pres	might
conveniently	adv	conveniently
betray	vblex.inf	betray
him	prn.obj.p3.m.sg	him
.	sent	.
</s>
</v>
<v at="14:12">
<s>
And	cnjcoo	and
the	det.def.sp	the
first	adj.ord	first
day	n.sg	day
of	pr	of
unleavened	unknown	unleavened
bread	n.sg	bread
,	cm	,
when	cnjadv	when
they	prn.subj.p3.mf.pl	they
killed	vblex.past	kill
the	det.def.sp	the
passover	unknown	passover
,	cm	,
his	adj.pos.pred	his
disciples	n.pl	disciple
said	vblex.past	say
unto	pr	unto
him	prn.obj.p3.m.sg	him
,	cm	,
Where	adv	where
wilt	vbmod.pres.p2.sg	will
thou	prn.subj.p2.mf.sg	thou
that	cnjsub	that
we	prn.subj.p1.mf.pl	we
go	vblex.pres	go
and	cnjcoo	and
prepare	vblex.pres	prepare
that	cnjsub	that
thou	prn.subj.p2.mf.sg	thou
mayest	vbmod.pres	may
eat	vblex.inf	eat
the	det.def.sp	the
passover	unknown	passover
?	sent	?
</s>
</v>
<v at="14:13">
<s>
And	cnjcoo	and
he	prn.subj.p3.m.sg	he
sendeth	unknown	sendeth
forth	adv	forth
two	num.pl	two
of	pr	of
his	adj.pos.pred	his
disciples	n.pl	disciple
,	cm	,
and	cnjcoo	and
saith	vblex.pres.p3.sg	say
unto	pr	unto
them	prn.obj.p3.mf.pl	them
,	cm	,
Go	vblex.imp	go
ye	prn.subj.p2.mf.pl	ye
into	pr	into
the	det.def.sp	the
city	n.sg	city
,	cm	,
and	cnjcoo	and
there	adv	there
shall	vbmod.pres	shall
meet	vblex.inf	meet
you	prn.obj.p2.mf.sp	you
a	det.ind.sg	a
man	n.sg	man
bearing	vblex.ger	bear
a	det.ind.sg	a
pitcher	n.sg	pitcher
of	pr	of
water	n.sg	water
:	sent	:
</s>
<s>
follow	vblex.imp	follow
him	prn.obj.p3.m.sg	him
.	sent	.
</s>
</v>
<v at="14:14">
<s>
And	cnjcoo	and
wheresoever	unknown	wheresoever
he	prn.subj.p3.m.sg	he
shall	vbmod.pres	shall
go in	vblex.inf	go in
,	cm	,
say	vblex.imp	say
ye	prn.subj.p2.mf.pl	ye
to	pr	to
the	det.def.sp	the
goodman	unknown	goodman
of	pr	of
the	det.def.sp	the
house	n.sg	house
,	cm	,
The	det.def.sp	the
Master	n.sg	master
saith	vblex.pres.p3.sg	say
,	cm	,
Where	adv	where
is	vbser.pres.p3.sg	be
the	det.def.sp	the
guestchamber	unknown	guestchamber
,	cm	,
where	adv	where
I	prn.subj.p1.mf.sg.min	prpers
shall	vbmod.pres	shall
eat	vblex.inf	eat
the	det.def.sp	the
passover	unknown	passover
with	pr	with
my	det.pos.sp	my
disciples	n.pl	disciple
?	sent	?
</s>
</v>
<v at="14:15">
<s>
And	cnjcoo	and
he	prn.subj.p3.m.sg	he
will	vbmod.pres	will
shew	unknown	shew
you	prn.obj.p2.mf.sp	you
a	det.ind.sg	a
large	adj.sint	large
upper	adj	upper
room	n.sg	room
furnished	vblex.past	furnish
and	cnjcoo	and
prepared	vblex.pp	prepare
:	sent	:
</s>
<s>
there	adv	there
make	vblex.pres	make
ready	adj.sint	ready
for	pr	for
us	prn.obj.p1.mf.pl	us
.	sent	.
</s>
</v>
<v at="14:16">
<s>
And	cnjcoo	and
his	adj.pos.pred	his
disciples	n.pl	disciple
went	vblex.past	go
forth	adv	forth
,	cm	,
and	cnjcoo	and
came	vblex.past	come
into	pr	into
the	det.def.sp	the
city	n.sg	city
,	cm	,
and	cnjcoo	and
found	vblex.past	find
as	cnjadv	as
he	prn.subj.p3.m.sg	he
had	vbhaver.past	have
said	vblex.pp	say
unto	pr	unto
them	prn.obj.p3.mf.pl	them
:	sent	:
</s>
<s>
and	cnjcoo	and
they	prn.subj.p3.mf.pl	they
made	vblex.past	make
ready	adv	ready
the	det.def.sp	the
passover	unknown	passover
.	sent	.
</s>
</v>
<v at="14:17">
<s>
And	cnjcoo	and
in the evening	adv	in the evening
he	prn.subj.p3.m.sg	he
cometh	vblex.pres.p3.sg	come
with	pr	with
the	det.def.sp	the
twelve	num.pl	twelve
.	sent	.
</s>
</v>
<v at="14:18">
<s>
And	cnjcoo	and
as	cnjadv	as
they	prn.subj.p3.mf.pl	they
sat	vblex.past	sit
and	cnjcoo	and
did	vbdo.past	do
eat	vblex.inf	eat
,	cm	,
Jesus	np.ant.m.sg	Jesus
said	vblex.past	say
,	cm	,
Verily	adv	verily
I	prn.subj.p1.mf.sg.min	prpers
say	vblex.pres	say
unto	pr	unto
you	prn.obj.p2.mf.sp	you
,	cm	,
One	prn.dem.mf.sg	one
of	pr	of
you	prn.obj.p2.mf.sp	you
which	prn.itg.mf.sp	which
eateth	unknown	eateth
with	pr	with
me	prn.obj.p1.mf.sg	me
shall	vbmod.pres	shall
betray	vblex.inf	betray
me	prn.obj.p1.mf.sg	me
.	sent	.
</s>
</v>
<v at="14:19">
<s>
And	cnjcoo	and
they	prn.subj.p3.mf.pl	they
began	vblex.past	begin
to	pr	to
be	vbser.inf	be
sorrowful	unknown	sorrowful
,	cm	,
and	cnjcoo	and
to	pr	to
say	vblex.inf	say
unto	pr	unto
him	prn.obj.p3.m.sg	him
one by one	adv	one by one
,	cm	,
Is	vbser.pres.p3.sg	be
it	prn.obj.p3.nt.sg	it
I	prn.subj.p1.mf.sg.min	prpers
?	sent	?
</s>
<s>
and	cnjcoo	and
another	prn.ind.mf.sg	another
said	vblex.past	say
,	cm	,
Is	vbser.pres.p3.sg	be
it	prn.obj.p3.nt.sg	it
I	prn.subj.p1.mf.sg.min	prpers
?	sent	?
</s>
</v>
<v at="14:20">
<s>
And	cnjcoo	and
he	prn.subj.p3.m.sg	he
answered	vblex.past	answer
and	cnjcoo	and
said	vblex.past	say
unto	pr	unto
them	prn.obj.p3.mf.pl	them
,	cm	,
It	prn.subj.p3.nt.sg	prpers
is	vbser.pres.p3.sg	be
one	prn.dem.mf.sg	one
of	pr	of
the	det.def.sp	the
twelve	num.pl	twelve
,	cm	,
that	cnjsub	that
dippeth	unknown	dippeth
with	pr	with
me	prn.obj.p1.mf.sg	me
in	pr	in
the	det.def.sp	the
dish	n.sg	dish
.	sent	.
</s>
</v>
<v at="14:21">
<s>
The	det.def.sp	the
Son	n.sg	son
of	pr	of
man	n.sg	man
indeed	adv	indeed
goeth	vblex.pres.p3.sg	go
,	cm	,
as	cnjadv	as
it	prn.subj.p3.nt.sg	it
is	vbser.pres.p3.sg	be
written	vblex.pp	write
of	pr	of
him	prn.obj.p3.m.sg	him
:	sent	:
</s>
<s>
but	cnjcoo	but
woe	unknown	woe
to	pr	to
that	det.dem.sg	that
man	n.sg	man
by	pr	by
whom	prn.rel.an.mf.sp	whom
the	det.def.sp	the
Son	n.sg	son
of	pr	of
man	n.sg	man
is	vbser.pres.p3.sg	be
betrayed	vblex.pp	betray
!	sent	!
</s>
<s>
good	n.sg	good
were	vbser.past	be
it	prn.obj.p3.nt.sg	it
for	pr	for
that	det.dem.sg	that
man	n.sg	man
if	cnjsub	if
he	prn.subj.p3.m.sg	he
had	vbhaver.past	have
never	adv	never
been born	vblex.pp	be born
.	sent	.
</s>
</v>
<v at="14:22">
<s>
And	cnjcoo	and
as	cnjadv	as
they	prn.subj.p3.mf.pl	they
did	vbdo.past	do
eat	vblex.inf	eat
,	cm	,
Jesus	np.ant.m.sg	Jesus
took	vblex.past	take
bread	n.sg	bread
,	cm	,
and	cnjcoo	and
blessed	vblex.past	bless
,	cm	,
and	cnjcoo	and
brake	vblex.inf	brake
it	prn.obj.p3.nt.sg	it
,	cm	,
and	cnjcoo	and
gave	vblex.past	give
to	pr	to
them	prn.obj.p3.mf.pl	them
,	cm	,
and	cnjcoo	and
said	vblex.past	say
,	cm	,
Take	vblex.imp	take
,	cm	,
eat	vblex.imp	eat
:	sent	:
</s>
<s>
this	prn.dem.mf.sg	this
is	vbser.pres.p3.sg	be
my	det.pos.sp	my
body	n.sg	body
.	sent	.
</s>
</v>
<v at="14:23">
<s>
And	cnjcoo	and
he	prn.subj.p3.m.sg	he
took	vblex.past	take
the	det.def.sp	the
cup	n.sg	cup
,	cm	,
and	cnjcoo	and
when	cnjadv	when
he	prn.subj.p3.m.sg	he
had	vbhaver.past	have
given	vblex.pp	give
thanks	ij	thanks
,	cm	,
he	prn.subj.p3.m.sg	he
gave	vblex.past	give
it	prn.obj.p3.nt.sg	it
to	pr	to
them	prn.obj.p3.mf.pl	them
:	sent	:
</s>
<s>
and	cnjcoo	and
they all	prn.subj.p3.mf.pl	they all
drank	vblex.past	drink
of	pr	of
it	prn.obj.p3.nt.sg	it
.	sent	.
</s>
</v>
<v at="14:24">
<s>
And	cnjcoo	and
he	prn.subj.p3.m.sg	he
said	vblex.past	say
unto	pr	unto
them	prn.obj.p3.mf.pl	them
,	cm	,
This	prn.dem.mf.sg	this
is	vbser.pres.p3.sg	be
my	det.pos.sp	my
blood	n.sg	blood
of	pr	of
the	det.def.sp	the
new	adj.sint	new
testament	n.sg	testament
,	cm	,
which	prn.itg.mf.sp	which
is	vbser.pres.p3.sg	be
shed	vblex.pp	shed
for	pr	for
many	prn.ind.mf.pl	many
.	sent	.
</s>
</v>
<v at="14:25">
<s>
Verily	adv	verily
I	prn.subj.p1.mf.sg.min	prpers
say	vblex.pres	say
unto	pr	unto
you	prn.obj.p2.mf.sp	you
,	cm	,
I	prn.subj.p1.mf.sg.min	prpers
will	vbmod.pres	will
drink	vblex.inf	drink
no	adv	no
more	adv	more
of	pr	of
the	det.def.sp	the
fruit	n.sg	fruit
of	pr	of
the	det.def.sp	the
vine	n.sg	vine
,	cm	,
until	cnjadv	until
that	det.dem.sg	that
day	n.sg	day
that	cnjsub	that
I	prn.subj.p1.mf.sg.min	prpers
drink	vblex.pres	drink
it	prn.obj.p3.nt.sg	it
new	adj.sint	new
in	pr	in
the	det.def.sp	the
kingdom	n.sg	kingdom
of	pr	of
God	n.sg	god
.	sent	.
</s>
</v>
<v at="14:26">
<s>
And	cnjcoo	and
when	cnjadv	when
they	prn.subj.p3.mf.pl	they
had	vbhaver.past	have
sung	vblex.pp	sing
an	det.ind.sg	a
hymn	n.sg	hymn
,	cm	,
they	prn.subj.p3.mf.pl	they
went out	vblex.past	go out
into	pr	into
the	det.def.sp	the
mount	n.sg	mount
of	pr	of
Olives	n.pl	olive
.	sent	.
</s>
</v>
<v at="14:27">
<s>
And	cnjcoo	and
Jesus	np.ant.m.sg	Jesus
saith	vblex.pres.p3.sg	say
unto	pr	unto
them	prn.obj.p3.mf.pl	them
,	cm	,
All	predet.sp	all
ye	prn.subj.p2.mf.pl	ye
shall	vbmod.pres	shall
be	vbser.inf	be
offended	vblex.pp	offend
because of	pr	because of
me	prn.obj.p1.mf.sg	me
this	det.dem.sg	this
night	n.sg	night
:	sent	:
</s>
<s>
for	pr	for
it	prn.subj.p3.nt.sg	it
is	vbser.pres.p3.sg	be
written	vblex.pp	write
,	cm	,
I	prn.subj.p1.mf.sg.min	prpers
will	vbmod.pres	will
smite	vblex.inf	smite
the	det.def.sp	the
shepherd	n.sg	shepherd
,	cm	,
and	cnjcoo	and
the	det.def.sp	the
sheep	n.sg	sheep
shall	vbmod.pres	shall
be	vbser.inf	be
scattered	vblex.pp	scatter
.	sent	.
</s>
</v>
<v at="14:28">
<s>
But	cnjcoo	but
after that	adv	after that
I	prn.subj.p1.mf.sg.min	prpers
am	vbser.pres.p1.sg	be
risen	vblex.pp	rise
,	cm	,
I	prn.subj.p1.mf.sg.min	prpers
will	vbmod.pres	will
go	vblex.inf	go
before	pr	before
you	prn.obj.p2.mf.sp	you
into	pr	into
Galilee	unknown	Galilee
.	sent	.
</s>
</v>
<v at="14:29">
<s>
But	cnjcoo	but
Peter	np.ant.m.sg	Peter
said	vblex.past	say
unto	pr	unto
him	prn.obj.p3.m.sg	him
,	cm	,
Although	cnjadv	although
all	predet.sp	all
shall	vbmod.pres	shall
be	vbser.inf	be
offended	vblex.pp	offend
,	cm	,
yet	cnjadv	yet
will	vbmod.pres	will
not	adv	not
I	prn.subj.p1.mf.sg.min	prpers
.	sent	.
</s>
</v>
<v at="14:30">
<s>
And	cnjcoo	and
Jesus	np.ant.m.sg	Jesus
saith	vblex.pres.p3.sg	say
unto	pr	unto
him	prn.obj.p3.m.sg	him
,	cm	,
Verily	adv	verily
I	prn.subj.p1.mf.sg.min	prpers
say	vblex.pres	say
unto	pr	unto
thee	prn.obj.p2.mf.sg	thou
,	cm	,
That	cnjsub	that
this	det.dem.sg	this
day	n.sg	day
,	cm	,
even	adv	even
in	pr	in
this	det.dem.sg	this
night	n.sg	night
,	cm	,
before	pr	before
the	det.def.sp	the
cock	n.sg	cock
crow	n.sg	crow
twice	adv	twice
,	cm	,
thou	prn.subj.p2.mf.sg	thou
shalt	vbmod.pres.p2.sg	shall
deny	vblex.inf	deny
me	prn.obj.p1.mf.sg	me
thrice	adv	thrice
.	sent	.
</s>
</v>
<v at="14:31">
<s>
But	cnjcoo	but
he	prn.subj.p3.m.sg	he
spake	vblex.past	speak
the	det.def.sp	the
more	preadv	more
vehemently	adv	vehemently
,	cm	,
If	cnjsub	if
I	prn.subj.p1.mf.sg.min	prpers
should	vbmod.past	shall
die	vblex.inf	die
with	pr	with
thee	prn.obj.p2.mf.sg	thou
,	cm	,
I	prn.subj.p1.mf.sg.min	prpers
will	vbmod.pres	will
not	adv	not
deny	vblex.inf	deny
thee	prn.obj.p2.mf.sg	thou
in	pr	in
any	prn.qnt.mf.sp	any
wise	adj.sint	wise
.	sent	.
</s>
<s>
Likewise	adv	likewise
also	adv	also
said	vblex.past	say
they all	prn.subj.p3.mf.pl	they all
.	sent	.
</s>
</v>
<v at="14:32">
<s>
And	cnjcoo	and
they	prn.subj.p3.mf.pl	they
came	vblex.past	come
to	pr	to
a	det.ind.sg	a
place	n.sg	place
which	prn.itg.mf.sp	which
was	vbser.past.p1.sg	be
named	vblex.pp	name
Gethsemane	unknown	Gethsemane
:	sent	:
</s>
<s>
and	cnjcoo	and
he	prn.subj.p3.m.sg	he
saith	vblex.pres.p3.sg	say
to	pr	to
his	adj.pos.pred	his
disciples	n.pl	disciple
,	cm	,
Sit	vblex.imp	sit
ye	prn.subj.p2.mf.pl	ye
here	adv	here
,	cm	,
while	cnjadv	while
I	prn.subj.p1.mf.sg.min	prpers
shall	vbmod.pres	shall
pray	vblex.inf	pray
.	sent	.
</s>
</v>
<v at="14:33">
<s>
And	cnjcoo	and
he	prn.subj.p3.m.sg	he
taketh	vblex.pres.p3.sg	take
with	pr	with
him	prn.obj.p3.m.sg	him
Peter	np.ant.m.sg	Peter
and	cnjcoo	and
James	np.cog.sg	James
and	cnjcoo	and
John	np.cog.sg	John
,	cm	,
and	cnjcoo	and
began	vblex.past	begin
to	pr	to
be	vbser.inf	be
sore	n.sg	sore
amazed	vblex.pp	amaze
,	cm	,
and	cnjcoo	and
to	pr	to
be	vbser.inf	be
very	preadv	very
heavy	adj.sint	heavy
;	sent	;
</s>
</v>
<v at="14:34">
<s>
And	cnjcoo	and
saith	vblex.pres.p3.sg	say
unto	pr	unto
them	prn.obj.p3.mf.pl	them
,	cm	,
My	det.pos.sp	my
soul	n.sg	soul
is	vbser.pres.p3.sg	be
exceeding	vblex.ger	exceed
sorrowful	unknown	sorrowful
unto	pr	unto
death	n.sg	death
:	sent	:
</s>
<s>
tarry	unknown	tarry
ye	prn.subj.p2.mf.pl	ye
here	adv	here
,	cm	,
and	cnjcoo	and
watch	n.sg	watch
.	sent	.
</s>
</v>
<v at="14:35">
<s>
And	cnjcoo	and
he	prn.subj.p3.m.sg	he
went	vblex.past	go
forward	adv	forward
a	det.ind.sg	a
little	adj	little
,	cm	,
and	cnjcoo	and
fell	vblex.past	fall
on	pr	on
the	det.def.sp	the
ground	n.sg	ground
,	cm	,
and	cnjcoo	and
prayed	vblex.past	pray
that	cnjsub	that
,	cm	,
if	cnjsub	if
it	prn.subj.p3.nt.sg	it
were	vbser.past	be
possible	adj	possible
,	cm	,
the	det.def.sp	the
hour	n.sg	hour
might	vbmod.pres	might
pass	vblex.inf	pass
from	pr	from
him	prn.obj.p3.m.sg	him
.	sent	.
</s>
</v>
<v at="14:36">
<s>
And	cnjcoo	and
he	prn.subj.p3.m.sg	he
said	vblex.past	say
,	cm	,
Abba	unknown	Abba
,	cm	,
Father	n.sg	father
,	cm	,
all	prn.qnt.mf.sp	all
things	n.pl	thing
are	vbser.pres	be
possible	adj	possible
unto	pr	unto
thee	prn.obj.p2.mf.sg	thou
;	sent	;
</s>
<s>
take away	vblex.sep.imp	take away
this	det.dem.sg	this
cup	n.sg	cup
from	pr	from
me	prn.obj.p1.mf.sg	me
:	sent	:
</s>
<s>
nevertheless	adv	nevertheless
not	adv	not
what	prn.rel.nn.mf.sg	what
I	prn.subj.p1.mf.sg.min	prpers
will	vbmod.pres	will
,	cm	,
but	cnjcoo	but
what	prn.rel.nn.mf.sg	what
thou	prn.subj.p2.mf.sg	thou
wilt	vbmod.pres.p2.sg	will
.	sent	.
</s>
</v>
<v at="14:37">
<s>
And	cnjcoo	and
he	prn.subj.p3.m.sg	he
cometh	vblex.pres.p3.sg	come
,	cm	,
and	cnjcoo	and
findeth	unknown	findeth
them	prn.obj.p3.mf.pl	them
sleeping	vblex.ger	sleep
,	cm	,
and	cnjcoo	and
saith	vblex.pres.p3.sg	say
unto	pr	unto
Peter	np.ant.m.sg	Peter
,	cm	,
Simon	np.ant.m.sg	Simon
,	cm	,
sleepest	unknown	sleepest
thou	prn.subj.p2.mf.sg	thou
?	sent	?
</s>
<s>
couldest	unknown	couldest
not	adv	not
thou	prn.subj.p2.mf.sg	thou
watch	vblex.pres	watch
one	num.sg	one
hour	n.sg	hour
?	sent	?
</s>
</v>
<v at="14:38">
<s>
Watch	n.sg	watch
ye	prn.subj.p2.mf.pl	ye
and	cnjcoo	and
pray	vblex.pres	pray
,	cm	,
lest	unknown	lest
ye	prn.subj.p2.mf.pl	ye
enter	vblex.pres	enter
into	pr	into
temptation	n.sg	temptation
.	sent	.
</s>
<s>
The	det.def.sp	the
spirit	n.sg	spirit
truly	adv	truly
is	vbser.pres.p3.sg	be
ready	adj.sint	ready
,	cm	,
but	cnjcoo	but
the	det.def.sp	the
flesh	n.sg	flesh
is	vbser.pres.p3.sg	be
weak	adj.sint	weak
.	sent	.
</s>
</v>
<v at="14:39">
<s>
And	cnjcoo	and
again	adv	again
he	prn.subj.p3.m.sg	he
went	vblex.past	go
away	adv	away
,	cm	,
and	cnjcoo	and
prayed	vblex.past	pray
,	cm	,
and	cnjcoo	and
spake	vblex.past	speak
the same	det.def.sp	the
words	n.pl	word
.	sent	.
</s>
</v>
<v at="14:40">
<s>
And	cnjcoo	and
when	cnjadv	when
he	prn.subj.p3.m.sg	he
returned	vblex.past	return
,	cm	,
he	prn.subj.p3.m.sg	he
found	vblex.past	find
them	prn.obj.p3.mf.pl	them
asleep	adj	asleep
again	adv	again
,	cm	,
(	lpar	(
for	pr	for
their	det.pos.sp	their
eyes	n.pl	eye
were	vbser.past	be
heavy	adj.sint	heavy
,	cm	,
)	rpar	)
neither	cnjcoo	neither
wist	unknown	wist
they	prn.subj.p3.mf.pl	they
what	prn.rel.nn.mf.sg	what
to	pr	to
answer	vblex.inf	answer
him	prn.obj.p3.m.sg	him
.	sent	.
</s>
</v>
<v at="14:41">
<s>
And	cnjcoo	and
he	prn.subj.p3.m.sg	he
cometh	vblex.pres.p3.sg	come
the third time	adv	the third time
,	cm	,
and	cnjcoo	and
saith	vblex.pres.p3.sg	say
unto	pr	unto
them	prn.obj.p3.mf.pl	them
,	cm	,
Sleep	vblex.inf	sleep
on	adv	on
now	adv	now
,	cm	,
and	cnjcoo	and
take	vblex.pres	take
your	det.pos.sp	your
rest	n.sg	rest
:	sent	:
</s>
<s>
it	prn.subj.p3.nt.sg	it
is	vbser.pres.p3.sg	be
enough	adv	enough
,	cm	,
the	det.def.sp	the
hour	n.sg	hour
is	vbser.pres.p3.sg	be
come	vblex.pp	come
;	sent	;
</s>
<s>
behold	vblex.imp	behold
,	cm	,
the	det.def.sp	the
Son	n.sg	son
of	pr	of
man	n.sg	man
is	vbser.pres.p3.sg	be
betrayed	vblex.pp	betray
into	pr	into
the	det.def.sp	the
hands	n.pl	hand
of	pr	of
sinners	n.pl	sinner
.	sent	.
</s>
</v>
<v at="14:42">
<s>
Rise	n.sg	rise
up	adv	up
,	cm	,
let	vblex.imp	let
us	prn.obj.p1.mf.pl	us
go	vblex.inf	go
;	sent	;
</s>
<s>
lo	adv	lo
,	cm	,
he	prn.subj.p3.m.sg	he
that	cnjsub	that
betrayeth	unknown	betrayeth
me	prn.obj.p1.mf.sg	me
is	vbser.pres.p3.sg	be
at hand	adv	at hand
.	sent	.
</s>
</v>
<v at="14:43">
<s>
And	cnjcoo	and
immediately	adv	immediately
,	cm	,
while	cnjadv	while
he	prn.subj.p3.m.sg	he
yet	cnjadv	yet
spake	vblex.past	speak
,	cm	,
cometh	vblex.pres.p3.sg	come
Judas	np.ant.m.sg	Judas
,	cm	,
one	prn.dem.mf.sg	one
of	pr	of
the	det.def.sp	the
twelve	num.pl	twelve
,	cm	,
and	cnjcoo	and
with	pr	with
him	prn.obj.p3.m.sg	him
a	det.ind.sg	a
great	adj.sint	great
multitude	n.sg	multitude
with	pr	with
swords	n.pl	sword
and	cnjcoo	and
staves	unknown	staves
,	cm	,
from	pr	from
the	det.def.sp	the
chief	n.sg	chief
priests	n.pl	priest
and	cnjcoo	and
the	det.def.sp	the
scribes	n.pl	scribe
and	cnjcoo	and
the	det.def.sp	the
elders	n.pl	elder
.	sent	.
</s>
</v>
<v at="14:44">
<s>
And	cnjcoo	and
he	prn.subj.p3.m.sg	he
that	cnjsub	that
betrayed	vblex.past	betray
him	prn.obj.p3.m.sg	him
had	vbhaver.past	have
given	vblex.pp	give
them	prn.obj.p3.mf.pl	them
a	det.ind.sg	a
token	n.sg	token
,	cm	,
saying	vblex.pprs	say
,	cm	,
Whomsoever	unknown	Whomsoever
I	prn.subj.p1.mf.sg.min	prpers
shall	vbmod.pres	shall
kiss	vblex.inf	kiss
,	cm	,
that	cnjsub	that
same	adj	same
is	vbser.pres.p3.sg	be
he	prn.subj.p3.m.sg	he
;	sent	;
</s>
<s>
take	vblex.imp	take
him	prn.obj.p3.m.sg	him
,	cm	,
and	cnjcoo	and
lead	vblex.pres	lead
him	prn.obj.p3.m.sg	him
away	adv	away
safely	adv	safely
.	sent	.
</s>
</v>
<v at="14:45">
<s>
And	cnjcoo	and
as soon as	cnjadv	as soon as
he	prn.subj.p3.m.sg	he
was	vbser.past.p1.sg	be
come	vblex.pp	come
,	cm	,
he	prn.subj.p3.m.sg	he
goeth	vblex.pres.p3.sg	go
straightway	adv	straightway
to	pr	to
him	prn.obj.p3.m.sg	him
,	cm	,
and	cnjcoo	and
saith	vblex.pres.p3.sg	say
,	cm	,
Master	n.sg	master
,	cm	,
master	n.sg	master
;	sent	;
</s>
<s>
and	cnjcoo	and
kissed	vblex.past	kiss
him	prn.obj.p3.m.sg	him
.	sent	.
</s>
</v>
<v at="14:46">
<s>
And	cnjcoo	and
they	prn.subj.p3.mf.pl	they
laid	vblex.past	lay
their	det.pos.sp	their
hands	n.pl	hand
on	pr	on
him	prn.obj.p3.m.sg	him
,	cm	,
and	cnjcoo	and
took	vblex.past	take
him	prn.obj.p3.m.sg	him
.	sent	.
</s>
</v>
<v at="14:47">
<s>
And	cnjcoo	and
one	prn.dem.mf.sg	one
of	pr	of
them	prn.obj.p3.mf.pl	them
that	cnjsub	that
stood	vblex.pp	stand
by	pr	by
drew	vblex.past	draw
a	det.ind.sg	a
sword	n.sg	sword
,	cm	,
and	cnjcoo	and
smote	vblex.past	smite
a	det.ind.sg	a
servant	n.sg	servant
of	pr	of
the	det.def.sp	the
high	adj.sint	high
priest	n.sg	priest
,	cm	,
and	cnjcoo	and
cut	vblex.past	cut
off	adv	off
his	det.pos.sp	his
ear	n.sg	ear
.	sent	.
</s>
</v>
<v at="14:48">
<s>
And	cnjcoo	and
Jesus	np.ant.m.sg	Jesus
answered	vblex.past	answer
and	cnjcoo	and
said	vblex.past	say
unto	pr	unto
them	prn.obj.p3.mf.pl	them
,	cm	,
Are	vbser.pres	be
ye	prn.subj.p2.mf.pl	ye
come out	vblex.pp	come out
,	cm	,
as	cnjadv	as
against	pr	against
a	det.ind.sg	a
thief	n.sg	thief
,	cm	,
with	pr	with
swords	n.pl	sword
and	cnjcoo	and
with	pr	with
staves	unknown	staves
to	pr	to
take	vblex.inf	take
me	prn.obj.p1.mf.sg	me
?	sent	?
</s>
</v>
<v at="14:49">
<s>
I	prn.subj.p1.mf.sg	prpers
was	vbser.past.p3.sg	be
daily	adj	daily
with	pr	with
you	prn.obj.p2.mf.sp	you
in	pr	in
the	det.def.sp	the
temple	n.sg	temple
teaching	n.sg	teaching
,	cm	,
and	cnjcoo	and
ye	prn.subj.p2.mf.pl	ye
took	vblex.past	take
me	prn.obj.p1.mf.sg	me
not	adv	not
:	sent	:
</s>
<s>
but	cnjcoo	but
the	det.def.sp	the
scriptures	n.pl	scripture
must	vbmod.pres	must
be	vbser.inf	be
fulfilled	vblex.pp	fulfil
.	sent	.
</s>
</v>
<v at="14:50">
<s>
And	cnjcoo	and
they all	prn.subj.p3.mf.pl	they all
forsook	unknown	forsook
him	prn.obj.p3.m.sg	him
,	cm	,
and	cnjcoo	and
fled	vblex.past	flee
.	sent	.
</s>
</v>
<v at="14:51">
<s>
And	cnjcoo	and
there	adv	there
followed	vblex.past	follow
him	prn.obj.p3.m.sg	him
a	det.ind.sg	a
certain	adj	certain
young	adj.sint	young
man	n.sg	man
,	cm	,
having	vblex.pprs	have
a	det.ind.sg	a
linen	n.sg	linen
cloth	n.sg	cloth
cast	vblex.pp	cast
about	pr	about
his	det.pos.sp	his
naked	adj	naked
body	n.sg	body
;	sent	;
</s>
<s>
and	cnjcoo	and
the	det.def.sp	the
young	adj.sint	young
men	n.pl	man
laid	vblex.past	lay
hold	n.sg	hold
on	pr	on
him	prn.obj.p3.m.sg	him
:	sent	:
</s>
</v>
<v at="14:52">
<s>
And	cnjcoo	and
he	prn.subj.p3.m.sg	he
left	vblex.past	leave
the	det.def.sp	the
linen	n.sg	linen
cloth	n.sg	cloth
,	cm	,
and	cnjcoo	and
fled	vblex.past	flee
from	pr	from
them	prn.obj.p3.mf.pl	them
naked	adj	naked
.	sent	.
</s>
</v>
<v at="14:53">
<s>
And	cnjcoo	and
they	prn.subj.p3.mf.pl	they
led	vblex.past	lead
Jesus	np.ant.m.sg	Jesus
away	adv	away
to	pr	to
the	det.def.sp	the
high	adj.sint	high
priest	n.sg	priest
:	sent	:
</s>
<s>
and	cnjcoo	and
with	pr	with
him	prn.obj.p3.m.sg	him
were	vbser.past	be
assembled	vblex.pp	assemble
all	predet.sp	all
the	det.def.sp	the
chief	n.sg	chief
priests	n.pl	priest
and	cnjcoo	and
the	det.def.sp	the
elders	n.pl	elder
and	cnjcoo	and
the	det.def.sp	the
scribes	n.pl	scribe
.	sent	.
</s>
</v>
<v at="14:54">
<s>
And	cnjcoo	and
Peter	np.ant.m.sg	Peter
followed	vblex.past	follow
him	prn.obj.p3.m.sg	him
afar	adv	afar
off	adv	off
,	cm	,
even	adv	even
into	pr	into
the	det.def.sp	the
palace	n.sg	palace
of	pr	of
the	det.def.sp	the
high	adj.sint	high
priest	n.sg	priest
:	sent	:
</s>
<s>
and	cnjcoo	and
he	prn.subj.p3.m.sg	he
sat	vblex.past	sit
with	pr	with
the	det.def.sp	the
servants	n.pl	servant
,	cm	,
and	cnjcoo	and
warmed	vblex.past	warm
himself	prn.ref.p3.m.sg	himself
at	pr	at
the	det.def.sp	the
fire	n.sg	fire
.	sent	.
</s>
</v>
<v at="14:55">
<s>
And	cnjcoo	and
the	det.def.sp	the
chief	n.sg	chief
priests	n.pl	priest
and	cnjcoo	and
all	predet.sp	all
the	det.def.sp	the
council	n.sg	council
sought	vblex.pp	seek
for	pr	for
witness	n.sg	witness
against	pr	against
Jesus	np.ant.m.sg	Jesus
to	pr	to
put	vblex.inf	put
him	prn.obj.p3.m.sg	him
to	pr	to
death	n.sg	death
;	sent	;
</s>
<s>
and	cnjcoo	and
found	vblex.past	find
none	prn.ind.nt.sg	none
.	sent	.
</s>
</v>
<v at="14:56">
<s>
For	pr	for
many	prn.ind.mf.pl	many
bare	unknown	bare
false	adj.sint	false
witness	n.sg	witness
against	pr	against
him	prn.obj.p3.m.sg	him
,	cm	,
but	cnjcoo	but
their	det.pos.sp	their
witness	n.sg	witness
agreed	vblex.past	agree
not	adv	not
together	adj	together
.	sent	.
</s>
</v>
<v at="14:57">
<s>
And	cnjcoo	and
there	adv	there
arose	vblex.past	arise
certain	adj	certain
,	cm	,
and	cnjcoo	and
bare	unknown	bare
false	adj.sint	false
witness	n.sg	witness
against	pr	against
him	prn.obj.p3.m.sg	him
,	cm	,
saying	vblex.ger	say
,	cm	,
</v>
<v at="14:58">
We	prn.subj.p1.mf.pl	prpers
heard	vblex.past	hear
him	prn.obj.p3.m.sg	him
say	vblex.inf	say
,	cm	,
I	prn.subj.p1.mf.sg.min	prpers
will	vbmod.pres	will
destroy	vblex.inf	destroy
this	det.dem.sg	this
temple	n.sg	temple
that	prn.dem.mf.sg	that
is	vbser.pres.p3.sg	be
made	vblex.pp	make
with	pr	with
hands	n.pl	hand
,	cm	,
and	cnjcoo	and
within	pr	within
three	num.pl	three
days	n.pl	day
I	prn.subj.p1.mf.sg.min	prpers
will	vbmod.pres	will
build	vblex.inf	build
another	prn.ind.mf.sg	another
made	vblex.past	make
without	pr	without
hands	n.pl	hand
.	sent	.
</s>
</v>
<v at="14:59">
<s>
But	cnjcoo	but
neither	cnjcoo	neither
so	cnjadv	so
did	vblex.past	do
their	det.pos.sp	their
witness	n.sg	witness
agree	vblex.inf	agree
together	adj	together
.	sent	.
</s>
</v>
<v at="14:60">
<s>
And	cnjcoo	and
the	det.def.sp	the
high	adj.sint	high
priest	n.sg	priest
stood	vblex.past	stand
up	adv	up
in	adv	in
the	det.def.sp	the
midst	unknown	midst
,	cm	,
and	cnjcoo	and
asked	vblex.past	ask
Jesus	np.ant.m.sg	Jesus
,	cm	,
saying	vblex.pprs	say
,	cm	,
Answerest	unknown	Answerest
thou	prn.subj.p2.mf.sg	thou
nothing	prn.ind.mf.sg	nothing
?	sent	?
</s>
<s>
what	prn.rel.nn.mf.sg	what
is	vbser.pres.p3.sg	be
it	prn.obj.p3.nt.sg	it
which	prn.itg.mf.sp	which
these	prn.dem.mf.pl	this
witness	n.sg	witness
against	pr	against
thee	prn.obj.p2.mf.sg	thou
?	sent	?
</s>
</v>
<v at="14:61">
<s>
But	cnjcoo	but
he	prn.subj.p3.m.sg	he
held	vblex.past	hold
his	det.pos.sp	his
peace	n.sg	peace
,	cm	,
and	cnjcoo	and
answered	vblex.past	answer
nothing	prn.ind.mf.sg	nothing
.	sent	.
</s>
<s>
Again	adv	again
the	det.def.sp	the
high	adj.sint	high
priest	n.sg	priest
asked	vblex.past	ask
him	prn.obj.p3.m.sg	him
,	cm	,
and	cnjcoo	and
said	vblex.past	say
unto	pr	unto
him	prn.obj.p3.m.sg	him
,	cm	,
Art	vbser.pres.p2.sg	be
thou	prn.subj.p2.mf.sg	thou
the	det.def.sp	the
Christ	np.ant.m.sg	Christ
,	cm	,
the	det.def.sp	the
Son	n.sg	son
of	pr	of
the	det.def.sp	the
Blessed	vblex.pp	bless
?	sent	?
</s>
</v>
<v at="14:62">
<s>
And	cnjcoo	and
Jesus	np.ant.m.sg	Jesus
said	vblex.past	say
,	cm	,
I	prn.subj.p1.mf.sg.min	prpers
am	vbser.pres.p1.sg	be
:	sent	:
</s>
<s>
and	cnjcoo	and
ye	prn.subj.p2.mf.pl	ye
shall	vbmod.pres	shall
see	vblex.inf	see
the	det.def.sp	the
Son	n.sg	son
of	pr	of
man	n.sg	man
sitting	vblex.subs	sit
on the right hand	adv	on the right hand
of	pr	of
power	n.sg	power
,	cm	,
and	cnjcoo	and
coming in	vblex.ger	come in
the	det.def.sp	the
clouds	n.pl	cloud
of	pr	of
heaven	n.sg	heaven
.	sent	.
</s>
</v>
<v at="14:63">
<s>
Then	adv	then
the	det.def.sp	the
high	adj.sint	high
priest	n.sg	priest
rent	n.sg	rent
his	adj.pos.pred	his
clothes	n.pl	clothes
,	cm	,
and	cnjcoo	and
saith	vblex.pres.p3.sg	say
,	cm	,
What	det.itg.sp	what
need	n.sg	need
we	prn.subj.p1.mf.pl	we
any	det.ind.sp	any
further	adj.sint.comp	far
witnesses	n.pl	witness
?	sent	?
</s>
</v>
<v at="14:64">
<s>
Ye	prn.subj.p2.mf.pl	ye
have	vbhaver.pres	have
heard	vblex.pp	hear
the	det.def.sp	the
blasphemy	n.sg	blasphemy
:	sent	:
</s>
<s>
what	prn.rel.nn.mf.sg	what
think	vblex.pres	think
ye	prn.subj.p2.mf.pl	ye
?	sent	?
</s>
<s>
And	cnjcoo	and
they all	prn.subj.p3.mf.pl	they all
condemned	vblex.past	condemn
him	prn.obj.p3.m.sg	him
to	pr	to
be	vbser.inf	be
guilty	adj.sint	guilty
of	pr	of
death	n.sg	death
.	sent	.
</s>
</v>
<v at="14:65">
<s>
And	cnjcoo	and
some	prn.ind.mf.pl	some
began	vblex.past	begin
to	pr	to
spit	n.sg	spit
on	pr	on
him	prn.obj.p3.m.sg	him
,	cm	,
and	cnjcoo	and
to	pr	to
cover	vblex.inf	cover
his	det.pos.sp	his
face	n.sg	face
,	cm	,
and	cnjcoo	and
to	pr	to
buffet	n.sg	buffet
him	prn.obj.p3.m.sg	him
,	cm	,
and	cnjcoo	and
to	pr	to
say	vblex.inf	say
unto	pr	unto
him	prn.obj.p3.m.sg	him
,	cm	,
Prophesy	unknown	Prophesy
:	sent	:
</s>
<s>
and	cnjcoo	and
the	det.def.sp	the
servants	n.pl	servant
did	vbdo.past	do
strike	vblex.inf	strike
him	prn.obj.p3.m.sg	him
with	pr	with
the	det.def.sp	the
palms	n.pl	palm
of	pr	of
their	det.pos.sp	their
hands	n.pl	hand
.	sent	.
</s>
</v>
<v at="14:66">
<s>
And	cnjcoo	and
as	cnjadv	as
Peter	np.ant.m.sg	Peter
was	vbser.past.p1.sg	be
beneath	adv	beneath
in	pr	in
the	det.def.sp	the
palace	n.sg	palace
,	cm	,
there	adv	there
cometh	vblex.pres.p3.sg	come
one	prn.dem.mf.sg	one
of	pr	of
the	det.def.sp	the
maids	n.pl	maid
of	pr	of
the	det.def.sp	the
high	adj.sint	high
priest	n.sg	priest
:	sent	:
</s>
</v>
<v at="14:67">
<s>
And	cnjcoo	and
when	cnjadv	when
she	prn.subj.p3.f.sg	she
saw	vblex.past	see
Peter	np.ant.m.sg	Peter
warming	vblex.ger	warm
himself	prn.ref.p3.m.sg	himself
,	cm	,
she	prn.subj.p3.f.sg	she
looked	vblex.past	look
upon	pr	upon
him	prn.obj.p3.m.sg	him
,	cm	,
and	cnjcoo	and
said	vblex.past	say
,	cm	,
And	cnjcoo	and
thou	prn.subj.p2.mf.sg	thou
also	adv	also
wast	vbser.past.p2.sg	be
with	pr	with
Jesus	np.ant.m.sg	Jesus
of	pr	of
Nazareth	np.top.sg	Nazareth
.	sent	.
</s>
</v>
<v at="14:68">
<s>
But	cnjcoo	but
he	prn.subj.p3.m.sg	he
denied	vblex.past	deny
,	cm	,
saying	vblex.pprs	say
,	cm	,
I	prn.subj.p1.mf.sg.min	prpers
know	vblex.pres	know
not	adv	not
,	cm	,
neither	cnjcoo	neither
understand	vblex.pres	understand
I	prn.subj.p1.mf.sg.min	prpers
what	prn.rel.nn.mf.sg	what
thou	prn.subj.p2.mf.sg	thou
sayest	unknown	sayest
.	sent	.
</s>
<s>
And	cnjcoo	and
he	prn.subj.p3.m.sg	he
went out	vblex.past	go out
into	pr	into
the	det.def.sp	the
porch	n.sg	porch
;	sent	;
</s>
<s>
and	cnjcoo	and
the	det.def.sp	the
cock	n.sg	cock
crew	n.sg	crew
.	sent	.
</s>
</v>
<v at="14:69">
<s>
And	cnjcoo	and
a	det.ind.sg	a
maid	n.sg	maid
saw	n.sg	saw
him	prn.obj.p3.m.sg	him
again	adv	again
,	cm	,
and	cnjcoo	and
began	vblex.past	begin
to	pr	to
say	vblex.inf	say
to	pr	to
them	prn.obj.p3.mf.pl	them
that	cnjsub	that
stood	vblex.pp	stand
by	pr	by
,	cm	,
This	prn.dem.mf.sg	this
is	vbser.pres.p3.sg	be
one	prn.dem.mf.sg	one
of	pr	of
them	prn.obj.p3.mf.pl	them
.	sent	.
</s>
</v>
<v at="14:70">
<s>
And	cnjcoo	and
he	prn.subj.p3.m.sg	he
denied	vblex.past	deny
it	prn.obj.p3.nt.sg	it
again	adv	again
.	sent	.
</s>
<s>
And	cnjcoo	and
a	det.ind.sg	a
little	adj	little
after	cnjadv	after
,	cm	,
they	prn.subj.p3.mf.pl	they
that	cnjsub	that
stood	vblex.pp	stand
by	pr	by
said	vblex.past	say
again	adv	again
to	pr	to
Peter	np.ant.m.sg	Peter
,	cm	,
Surely	adv	surely
thou	prn.subj.p2.mf.sg	thou
art	vbser.pres.p2.sg	be
one	prn.dem.mf.sg	one
of	pr	of
them	prn.obj.p3.mf.pl	them
:	sent	:
</s>
<s>
for	pr	for
thou	prn.subj.p2.mf.sg	thou
art	vbser.pres.p2.sg	be
a	det.ind.sg	a
Galilaean	unknown	Galilaean
,	cm	,
and	cnjcoo	and
thy	det.pos.sp	thy
speech	n.sg	speech
agreeth	unknown	agreeth
thereto	unknown	thereto
.	sent	.
</s>
</v>
<v at="14:71">
<s>
But	cnjcoo	but
he	prn.subj.p3.m.sg	he
began	vblex.past	begin
to	pr	to
curse	vblex.inf	curse
and	cnjcoo	and
to	pr	to
swear	vblex.inf	swear
,	cm	,
saying	vblex.pprs	say
,	cm	,
I	prn.subj.p1.mf.sg.min	prpers
know	vblex.pres	know
not	adv	not
this	det.dem.sg	this
man	n.sg	man
of	pr	of
whom	prn.rel.an.mf.sp	whom
ye	prn.subj.p2.mf.pl	ye
speak	vblex.pres	speak
.	sent	.
</s>
</v>
<v at="14:72">
<s>
And	cnjcoo	and
the second time	adv	the second time
the	det.def.sp	the
cock	n.sg	cock
crew	n.sg	crew
.	sent	.
</s>
<s>
And	cnjcoo	and
Peter	np.ant.m.sg	Peter
called	vblex.pp	call
to	pr	to
mind	vblex.inf	mind
the	det.def.sp	the
word	n.sg	word
that	cnjsub	that
Jesus	np.ant.m.sg	Jesus
said	vblex.past	say
unto	pr	unto
him	prn.obj.p3.m.sg	him
,	cm	,
Before	pr	before
the	det.def.sp	the
cock	n.sg	cock
crow	n.sg	crow
twice	adv	twice
,	cm	,
thou	prn.subj.p2.mf.sg	thou
shalt	vbmod.pres.p2.sg	shall
deny	vblex.inf	deny
me	prn.obj.p1.mf.sg	me
thrice	adv	thrice
.	sent	.
</s>
<s>
And	cnjcoo	and
when	cnjadv	when
he	prn.subj.p3.m.sg	he
thought	vblex.past	think
thereon	unknown	thereon
,	cm	,
he	prn.subj.p3.m.sg	he
wept	vblex.past	weep
.	sent	.
</s>
</v>
<v at="15:1">
<s>
And	cnjcoo	and
straightway	adv	straightway
in the morning	adv	in the morning
the	det.def.sp	the
chief	n.sg	chief
priests	n.pl	priest
held	vblex.past	hold
a	det.ind.sg	a
consultation	n.sg	consultation
with	pr	with
the	det.def.sp	the
elders	n.pl	elder
and	cnjcoo	and
scribes	n.pl	scribe
and	cnjcoo	and
the	det.def.sp	the
whole	adj	whole
council	n.sg	council
,	cm	,
and	cnjcoo	and
bound	vblex.past	bind
Jesus	np.ant.m.sg	Jesus
,	cm	,
and	cnjcoo	and
carried	vblex.past	carry
him	prn.obj.p3.m.sg	him
away	adv	away
,	cm	,
and	cnjcoo	and
delivered	vblex.past	deliver
him	prn.obj.p3.m.sg	him
to	pr	to
Pilate	unknown	Pilate
.	sent	.
</s>
</v>
<v at="15:2">
<s>
And	cnjcoo	and
Pilate	unknown	Pilate
asked	vblex.past	ask
him	prn.obj.p3.m.sg	him
,	cm	,
Art	vbser.pres.p2.sg	be
thou	prn.subj.p2.mf.sg	thou
the	det.def.sp	the
King	n.sg	king
of	pr	of
the	det.def.sp	the
Jews	unknown	Jews
?	sent	?
</s>
<s>
And	cnjcoo	and
he	prn.subj.p3.m.sg	he
answering	vblex.subs	answer
said	vblex.past	say
unto	pr	unto
him	prn.obj.p3.m.sg	him
,	cm	,
Thou	prn.subj.p2.mf.sg	thou
sayest	unknown	sayest
it	prn.obj.p3.nt.sg	it
.	sent	.
</s>
</v>
<v at="15:3">
<s>
And	cnjcoo	and
the	det.def.sp	the
chief	n.sg	chief
priests	n.pl	priest
accused	vblex.past	accuse
him	prn.obj.p3.m.sg	him
of	pr	of
many	det.qnt.pl	many
things	n.pl	thing
:	sent	:
</s>
<s>
but	cnjcoo	but
he	prn.subj.p3.m.sg	he
answered	vblex.past	answer
nothing	prn.ind.mf.sg	nothing
.	sent	.
</s>
</v>
<v at="15:4">
<s>
And	cnjcoo	and
Pilate	unknown	Pilate
asked	vblex.past	ask
him	prn.obj.p3.m.sg	him
again	adv	again
,	cm	,
saying	vblex.pprs	say
,	cm	,
Answerest	unknown	Answerest
thou	prn.subj.p2.mf.sg	thou
nothing	prn.ind.mf.sg	nothing
?	sent	?
</s>
<s>
behold	vblex.imp	behold
how many	det.itg.pl	how many
things	n.pl	thing
they	prn.subj.p3.mf.pl	they
witness	vblex.pres	witness
against	pr	against
thee	prn.obj.p2.mf.sg	thou
.	sent	.
</s>
</v>
<v at="15:5">
<s>
But	cnjcoo	but
Jesus	np.ant.m.sg	Jesus
yet	cnjadv	yet
answered	vblex.pp	answer
nothing	prn.ind.mf.sg	nothing
;	sent	;
</s>
<s>
so that	cnjadv	so that
Pilate	unknown	Pilate
marvelled	unknown	marvelled
.	sent	.
</s>
</v>
<v at="15:6">
<s>
Now	adv	now
at	pr	at
that	det.dem.sg	that
feast	n.sg	feast
he	prn.subj.p3.m.sg	he
released	vblex.past	release
unto	pr	unto
them	prn.obj.p3.mf.pl	them
one	num.sg	one
prisoner	n.sg	prisoner
,	cm	,
whomsoever	unknown	whomsoever
they	prn.subj.p3.mf.pl	they
desired	vblex.past	desire
.	sent	.
</s>
</v>
<v at="15:7">
<s>
And	cnjcoo	and
there	adv	there
was	vbser.past.p3.sg	be
one	prn.dem.mf.sg	one
named	vblex.pp	name
Barabbas	unknown	Barabbas
,	cm	,
which	prn.itg.mf.sp	which
lay	vblex.pres	lay
bound	vblex.pp	bind
with	pr	with
them	prn.obj.p3.mf.pl	them
that	prn.dem.mf.sg	that
had	vbhaver.past	have
made	vblex.pp	make
insurrection	n.sg	insurrection
with	pr	with
him	prn.obj.p3.m.sg	him
,	cm	,
who	prn.rel.an.mf.sp	who
had	vbhaver.past	have
committed	vblex.pp	commit
murder	n.sg	murder
in	pr	in
the	det.def.sp	the
insurrection	n.sg	insurrection
.	sent	.
</s>
</v>
<v at="15:8">
<s>
And	cnjcoo	and
the	det.def.sp	the
multitude	n.sg	multitude
crying	vblex.pprs	cry
aloud	unknown	aloud
began	vblex.past	begin
to	pr	to
desire	vblex.inf	desire
him	prn.obj.p3.m.sg	him
to	pr	to
do	vblex.inf	do
as	cnjadv	as
he	prn.subj.p3.m.sg	he
had	vbhaver.past	have
ever	adv	ever
done	vblex.pp	do
unto	pr	unto
them	prn.obj.p3.mf.pl	them
.	sent	.
</s>
</v>
<v at="15:9">
<s>
But	cnjcoo	but
Pilate	unknown	Pilate
answered	vblex.past	answer
them	prn.obj.p3.mf.pl	them
,	cm	,
saying	vblex.pprs	say
,	cm	,
Will	vbmod.pres	will
ye	prn.subj.p2.mf.pl	ye
that	cnjsub	that
I	prn.subj.p1.mf.sg.min	prpers
release	vblex.pres	release
unto	pr	unto
you	prn.obj.p2.mf.sp	you
the	det.def.sp	the
King	n.sg	king
of	pr	of
the	det.def.sp	the
Jews	unknown	Jews
?	sent	?
</s>
</v>
<v at="15:10">
<s>
For	pr	for
he	prn.subj.p3.m.sg	he
knew	vblex.past	know
that	cnjsub	that
the	det.def.sp	the
chief	n.sg	chief
priests	n.pl	priest
had	vbhaver.past	have
delivered	vblex.pp	deliver
him	prn.obj.p3.m.sg	him
for	pr	for
envy	n.sg	envy
.	sent	.
</s>
</v>
<v at="15:11">
<s>
But	cnjcoo	but
the	det.def.sp	the
chief	n.sg	chief
priests	n.pl	priest
moved	vblex.past	move
the	det.def.sp	the
people	n.pl	person
,	cm	,
that	cnjsub	that
he	prn.subj.p3.m.sg	he
should	vbmod.past	shall
rather	adv	rather
release	vblex.inf	release
Barabbas	unknown	Barabbas
unto	pr	unto
them	prn.obj.p3.mf.pl	them
.	sent	.
</s>
</v>
<v at="15:12">
<s>
And	cnjcoo	and
Pilate	unknown	Pilate
answered	vblex.past	answer
and	cnjcoo	and
said	vblex.past	say
again	adv	again
unto	pr	unto
them	prn.obj.p3.mf.pl	them
,	cm	,
What	det.itg.sp	what
will	n.sg	will
ye	prn.subj.p2.mf.pl	ye
then	cnjadv	then
that	cnjsub	that
I	prn.subj.p1.mf.sg.min	prpers
shall	vbmod.pres	shall
do	vblex.inf	do
unto	pr	unto
him	prn.obj.p3.m.sg	him
whom	prn.rel.an.mf.sp	whom
ye	prn.subj.p2.mf.pl	ye
call	vblex.inf	call
the	det.def.sp	the
King	n.sg	king
of	pr	of
the	det.def.sp	the
Jews	unknown	Jews
?	sent	?
</s>
</v>
<v at="15:13">
<s>
And	cnjcoo	and
they	prn.subj.p3.mf.pl	they
cried	vblex.past	cry
out	adv	out
again	adv	again
,	cm	,
Crucify	vblex.imp	crucify
him	prn.obj.p3.m.sg	him
.	sent	.
</s>
</v>
<v at="15:14">
<s>
Then	adv	then
Pilate	unknown	Pilate
said	vblex.past	say
unto	pr	unto
them	prn.obj.p3.mf.pl	them
,	cm	,
Why	adv.itg	why
,	cm	,
what	det.itg.sp	what
evil	n.sg	evil
hath	vbhaver.pres.p3.sg	have
he	prn.subj.p3.m.sg	he
done	vblex.pp	do
?	sent	?
</s>
<s>
And	cnjcoo	and
they	prn.subj.p3.mf.pl	they
cried	vblex.past	cry
out	adv	out
the	det.def.sp	the
more	preadv	more
exceedingly	adv	exceedingly
,	cm	,
Crucify	vblex.imp	crucify
him	prn.obj.p3.m.sg	him
.	sent	.
</s>
</v>
<v at="15:15">
<s>
And	cnjcoo	and
so	cnjadv	so
Pilate	unknown	Pilate
,	cm	,
willing	unknown	willing
to	pr	to
content	vblex.inf	content
the	det.def.sp	the
people	n.pl	person
,	cm	,
released	vblex.past	release
Barabbas	unknown	Barabbas
unto	pr	unto
them	prn.obj.p3.mf.pl	them
,	cm	,
and	cnjcoo	and
delivered	vblex.past	deliver
Jesus	np.ant.m.sg	Jesus
,	cm	,
when	cnjadv	when
he	prn.subj.p3.m.sg	he
had	vblex.past	have
scourged	unknown	scourged
him	prn.obj.p3.m.sg	him
,	cm	,
to	pr	to
be	vbser.inf	be
crucified	vblex.pp	crucify
.	sent	.
</s>
</v>
<v at="15:16">
<s>
And	cnjcoo	and
the	det.def.sp	the
soldiers	n.pl	soldier
led	vblex.past	lead
him	prn.obj.p3.m.sg	him
away	adv	away
into	pr	into
the	det.def.sp	the
hall	n.sg	hall
,	cm	,
called	vblex.pp	call
Praetorium	n.sg	praetorium
;	sent	;
</s>
<s>
and	cnjcoo	and
they	prn.subj.p3.mf.pl	they
call	vblex.pres	call
together	adj	together
the	det.def.sp	the
whole	adj	whole
band	n.sg	band
.	sent	.
</s>
</v>
<v at="15:17">
<s>
And	cnjcoo	and
they	prn.subj.p3.mf.pl	they
clothed	unknown	clothed
him	prn.obj.p3.m.sg	him
with	pr	with
purple	adj	purple
,	cm	,
and	cnjcoo	and
platted	unknown	platted
a	det.ind.sg	a
crown	n.sg	crown
of	pr	of
thorns	unknown	thorns
,	cm	,
and	cnjcoo	and
put	vblex.past	put
it	prn.obj.p3.nt.sg	it
about	pr	about
his	det.pos.sp	his
head	n.sg	head
,	cm	,
</v>
<v at="15:18">
And	cnjcoo	and
began	vblex.past	begin
to	pr	to
salute	unknown	salute
him	prn.obj.p3.m.sg	him
,	cm	,
Hail	n.sg	hail
,	cm	,
King	n.sg	king
of	pr	of
the	det.def.sp	the
Jews	unknown	Jews
!	sent	!
</s>
</v>
<v at="15:19">
<s>
And	cnjcoo	and
they	prn.subj.p3.mf.pl	they
smote	vblex.past	smite
him	prn.obj.p3.m.sg	him
on	pr	on
the	det.def.sp	the
head	n.sg	head
with	pr	with
a	det.ind.sg	a
reed	unknown	reed
,	cm	,
and	cnjcoo	and
did	vblex.past	do
spit	n.sg	spit
upon	pr	upon
him	prn.obj.p3.m.sg	him
,	cm	,
and	cnjcoo	and
bowing	vblex.ger	bow
their	det.pos.sp	their
knees	n.pl	knee
worshipped	vblex.past	worship
him	prn.obj.p3.m.sg	him
.	sent	.
</s>
</v>
<v at="15:20">
<s>
And	cnjcoo	and
when	cnjadv	when
they	prn.subj.p3.mf.pl	they
had	vbhaver.past	have
mocked	vblex.pp	mock
him	prn.obj.p3.m.sg	him
,	cm	,
they	prn.subj.p3.mf.pl	they
took off	vblex.sep.past	take off
the	det.def.sp	the
purple	adj	purple
from	pr	from
him	prn.obj.p3.m.sg	him
,	cm	,
and	cnjcoo	and
put	vblex.past	put
his	det.pos.sp	his
own	adj	own
clothes	n.pl	clothes
on	pr	on
him	prn.obj.p3.m.sg	him
,	cm	,
and	cnjcoo	and
led	vblex.past	lead
him	prn.obj.p3.m.sg	him
out	adv	out
to	pr	to
crucify	vblex.inf	crucify
him	prn.obj.p3.m.sg	him
.	sent	.
</s>
</v>
<v at="15:21">
<s>
And	cnjcoo	and
they	prn.subj.p3.mf.pl	they
compel	vblex.pres	compel
one	num.sg	one
Simon	np.ant.m.sg	Simon
a	det.ind.sg	a
Cyrenian	unknown	Cyrenian
,	cm	,
who	prn.rel.an.mf.sp	who
passed	vblex.pp	pass
by	pr	by
,	cm	,
coming out	vblex.subs	come out
of	pr	of
the	det.def.sp	the
country	n.sg	country
,	cm	,
the	det.def.sp	the
father	n.sg	father
of	pr	of
Alexander	np.cog.sg	Alexander
and	cnjcoo	and
Rufus	np.ant.m.sg	Rufus
,	cm	,
to	pr	to
bear	vblex.inf	bear
his	det.pos.sp	his
cross	n.sg	cross
.	sent	.
</s>
</v>
<v at="15:22">
<s>
And	cnjcoo	and
they	prn.subj.p3.mf.pl	they
bring	vblex.pres	bring
him	prn.obj.p3.m.sg	him
unto	pr	unto
the	det.def.sp	the
place	n.sg	place
Golgotha	unknown	Golgotha
,	cm	,
which	prn.itg.mf.sp	which
is	vbser.pres.p3.sg	be
,	cm	,
being	vbser.ger	be
interpreted	vblex.pp	interpret
,	cm	,
The	det.def.sp	the
place	n.sg	place
of	pr	of
a	det.ind.sg	a
skull	n.sg	skull
.	sent	.
</s>
</v>
<v at="15:23">
<s>
And	cnjcoo	and
they	prn.subj.p3.mf.pl	they
gave	vblex.past	give
him	prn.obj.p3.m.sg	him
to	pr	to
drink	vblex.inf	drink
wine	n.sg	wine
mingled	unknown	mingled
with	pr	with
myrrh	n.sg	myrrh
:	sent	:
</s>
<s>
but	cnjcoo	but
he	prn.subj.p3.m.sg	he
received	vblex.past	receive
it	prn.obj.p3.nt.sg	it
not	adv	not
.	sent	.
</s>
</v>
<v at="15:24">
<s>
And	cnjcoo	and
when	cnjadv	when
they	prn.subj.p3.mf.pl	they
had	vbhaver.past	have
crucified	vblex.pp	crucify
him	prn.obj.p3.m.sg	him
,	cm	,
they	prn.subj.p3.mf.pl	they
parted	vblex.past	part
his	adj.pos.pred	his
garments	n.pl	garment
,	cm	,
casting	vblex.pprs	cast
lots	n.pl	lot
upon	pr	upon
them	prn.obj.p3.mf.pl	them
,	cm	,
what	prn.rel.nn.mf.sg	what
every	det.ind.sg	every
man	n.sg	man
should	vbmod.past	shall
take	vblex.inf	take
.	sent	.
</s>
</v>
<v at="15:25">
<s>
And	cnjcoo	and
it	prn.subj.p3.nt.sg	it
was	vbser.past.p1.sg	be
the	det.def.sp	the
third	adj.ord	third
hour	n.sg	hour
,	cm	,
and	cnjcoo	and
they	prn.subj.p3.mf.pl	they
crucified	vblex.past	crucify
him	prn.obj.p3.m.sg	him
.	sent	.
</s>
</v>
<v at="15:26">
<s>
And	cnjcoo	and
the	det.def.sp	the
superscription	unknown	superscription
of	pr	of
his	det.pos.sp	his
accusation	n.sg	accusation
was	vbser.past.p3.sg	be
written	vblex.pp	write
over	adv	over
,	cm	,
THE	det.def.sp	the
KING	n.sg	king
OF	pr	of
THE	det.def.sp	the
JEWS	unknown	JEWS
.	sent	.
</s>
</v>
<v at="15:27">
<s>
And	cnjcoo	and
with	pr	with
him	prn.obj.p3.m.sg	him
they	prn.subj.p3.mf.pl	they
crucify	vblex.pres	crucify
two	num.pl	two
thieves	n.pl	thief
;	sent	;
</s>
<s>
the one	prn.dem.mf.sg	the one
on	pr	on
his	det.pos.sp	his
right	n.sg	right
hand	n.sg	hand
,	cm	,
and	cnjcoo	and
the other	prn.dem.mf.sg	the other
on	pr	on
his	det.pos.sp	his
left	n.sg	left
.	sent	.
</s>
</v>
<v at="15:28">
<s>
And	cnjcoo	and
the	det.def.sp	the
scripture	n.sg	scripture
was	vbser.past.p1.sg	be
fulfilled	vblex.pp	fulfil
,	cm	,
which	prn.itg.mf.sp	which
saith	vblex.pres.p3.sg	say
,	cm	,
And	cnjcoo	and
he	prn.subj.p3.m.sg	he
was	vbser.past.p1.sg	be
numbered	vblex.pp	number
with	pr	with
the	det.def.sp	the
transgressors	n.pl	transgressor
.	sent	.
</s>
</v>
<v at="15:29">
<s>
And	cnjcoo	and
they	prn.subj.p3.mf.pl	they
that	cnjsub	that
passed	vblex.pp	pass
by	pr	by
railed	unknown	railed
on	pr	on
him	prn.obj.p3.m.sg	him
,	cm	,
wagging	unknown	wagging
their	det.pos.sp	their
heads	n.pl	head
,	cm	,
and	cnjcoo	and
saying	n.sg	saying
,	cm	,
Ah	ij	ah
,	cm	,
thou	prn.subj.p2.mf.sg	thou
that	cnjsub	that
destroyest	unknown	destroyest
the	det.def.sp	the
temple	n.sg	temple
,	cm	,
and	cnjcoo	and
buildest	unknown	buildest
it	prn.obj.p3.nt.sg	it
in	pr	in
three	num.pl	three
days	n.pl	day
,	cm	,
</v>
<v at="15:30">
Save	vblex.imp	save
thyself	prn.ref.p2.mf.sg	yourself
,	cm	,
and	cnjcoo	and
come	vblex.pp	come
down	adv	down
from	pr	from
the	det.def.sp	the
cross	n.sg	cross
.	sent	.
</s>
</v>
<v at="15:31">
<s>
Likewise	adv	likewise
also	adv	also
the	det.def.sp	the
chief	n.sg	chief
priests	n.pl	priest
mocking	vblex.ger	mock
said	vblex.pp	say
among	pr	among
themselves	prn.ref.p3.mf.pl	themselves
with	pr	with
the	det.def.sp	the
scribes	n.pl	scribe
,	cm	,
He	prn.subj.p3.m.sg	prpers
saved	vblex.past	save
others	prn.ind.mf.pl	others
;	sent	;
</s>
<s>
himself	prn.ref.p3.m.sg	himself
he	prn.subj.p3.m.sg	he
cannot	vbmod.pres	can
save	vblex.inf	save
.	sent	.
</s>
</v>
<v at="15:32">
<s>
Let	vblex.imp	let
Christ	np.ant.m.sg	Christ
the	det.def.sp	the
King	n.sg	king
of	pr	of
Israel	np.top.sg	Israel
descend	vblex.pres	descend
now	adv	now
from	pr	from
the	det.def.sp	the
cross	n.sg	cross
,	cm	,
that	prn.dem.mf.sg	that
we	prn.subj.p1.mf.pl	we
may	vbmod.pres	may
see	vblex.inf	see
and	cnjcoo	and
believe	vblex.inf	believe
.	sent	.
</s>
<s>
And	cnjcoo	and
they	prn.subj.p3.mf.pl	they
that	cnjsub	that
were	vbser.past	be
crucified	vblex.pp	crucify
with	pr	with
him	prn.obj.p3.m.sg	him
reviled	unknown	reviled
him	prn.obj.p3.m.sg	him
.	sent	.
</s>
</v>
<v at="15:33">
<s>
And	cnjcoo	and
when	cnjadv	when
the	det.def.sp	the
sixth	adj.ord	sixth
hour	n.sg	hour
was	vbser.past.p1.sg	be
come	vblex.pp	come
,	cm	,
there	adv	there
was	vbser.past.p3.sg	be
darkness	n.sg	darkness
over	pr	over
the	det.def.sp	the
whole	adj	whole
land	n.sg	land
until	pr	until
the	det.def.sp	the
ninth	adj.ord	ninth
hour	n.sg	hour
.	sent	.
</s>
</v>
<v at="15:34">
<s>
And	cnjcoo	and
at	pr	at
the	det.def.sp	the
ninth	adj.ord	ninth
hour	n.sg	hour
Jesus	np.ant.m.sg	Jesus
cried	vblex.past	cry
with	pr	with
a	det.ind.sg	a
loud	adj.sint	loud
voice	n.sg	voice
,	cm	,
saying	vblex.pprs	say
,	cm	,
Eloi	unknown	Eloi
,	cm	,
Eloi	unknown	Eloi
,	cm	,
lama	unknown	lama
sabachthani	unknown	sabachthani
?	sent	?
</s>
<s>
which	prn.itg.mf.sp	which
is	vbser.pres.p3.sg	be
,	cm	,
being	vbser.ger	be
interpreted	vblex.pp	interpret
,	cm	,
My	det.pos.sp	my
God	n.sg	god
,	cm	,
my	det.pos.sp	my
God	n.sg	god
,	cm	,
why	adv.itg	why
hast	vbhaver.pres.p2.sg	have
thou	prn.subj.p2.mf.sg	thou
forsaken	unknown	forsaken
me	prn.obj.p1.mf.sg	me
?	sent	?
</s>
</v>
<v at="15:35">
<s>
And	cnjcoo	and
some	prn.ind.mf.pl	some
of	pr	of
them	prn.obj.p3.mf.pl	them
that	cnjsub	that
stood	vblex.pp	stand
by	pr	by
,	cm	,
when	cnjadv	when
they	prn.subj.p3.mf.pl	they
heard	vblex.past	hear
it	prn.obj.p3.nt.sg	it
,	cm	,
said	vblex.pp	say
,	cm	,
Behold	vblex.imp	behold
,	cm	,
he	prn.subj.p3.m.sg	he
calleth	unknown	calleth
Elias	np.ant.m.sg	Elias
.	sent	.
</s>
</v>
<v at="15:36">
<s>
And	cnjcoo	and
one	prn.dem.mf.sg	one
ran	vblex.past	run
and	cnjcoo	and
filled	vblex.past	fill
a	det.ind.sg	a
spunge	unknown	spunge
full	adj.sint	full
of	pr	of
vinegar	n.sg	vinegar
,	cm	,
and	cnjcoo	and
put	vblex.past	put
it	prn.obj.p3.nt.sg	it
on	adv	on
a	det.ind.sg	a
reed	unknown	reed
,	cm	,
and	cnjcoo	and
gave	vblex.past	give
him	prn.obj.p3.m.sg	him
to	pr	to
drink	n.sg	drink
,	cm	,
saying	vblex.pprs	say
,	cm	,
Let	vblex.imp	let
alone	adv	alone
;	sent	;
</s>
<s>
let	vblex.imp	let
us	prn.obj.p1.mf.pl	us
see	vblex.inf	see
whether	cnjadv	whether
Elias	np.ant.m.sg	Elias
will	vbmod.pres	will
come	vblex.inf	come
to	pr	to
take	vblex.inf	take
him	prn.obj.p3.m.sg	him
down	adv	down
.	sent	.
</s>
</v>
<v at="15:37">
<s>
And	cnjcoo	and
Jesus	np.ant.m.sg	Jesus
cried	vblex.past	cry
with	pr	with
a	det.ind.sg	a
loud	adj.sint	loud
voice	n.sg	voice
,	cm	,
and	cnjcoo	and
gave up	vblex.sep.past	give up
the	det.def.sp	the
ghost	n.sg	ghost
.	sent	.
</s>
</v>
<v at="15:38">
<s>
And	cnjcoo	and
the	det.def.sp	the
veil	n.sg	veil
of	pr	of
the	det.def.sp	the
temple	n.sg	temple
was	vbser.past.p3.sg	be
rent	vblex.inf	rent
in	adv	in
twain	unknown	twain
from	pr	from
the	det.def.sp	the
top	n.sg	top
to	pr	to
the	det.def.sp	the
bottom	n.sg	bottom
.	sent	.
</s>
</v>
<v at="15:39">
<s>
And	cnjcoo	and
when	cnjadv	when
the	det.def.sp	the
centurion	n.sg	centurion
,	cm	,
which	prn.itg.mf.sp	which
stood	vblex.past	stand
over	adv	over
against	pr	against
him	prn.obj.p3.m.sg	him
,	cm	,
saw	vblex.past	see
that	cnjsub	that
he	prn.subj.p3.m.sg	he
so	cnjadv	so
cried	vblex.pp	cry
out	adv	out
,	cm	,
and	cnjcoo	and
gave up	vblex.sep.past	give up
the	det.def.sp	the
ghost	n.sg	ghost
,	cm	,
he	prn.subj.p3.m.sg	he
said	vblex.past	say
,	cm	,
Truly	adv	truly
this	det.dem.sg	this
man	n.sg	man
was	vbser.past.p1.sg	be
the	det.def.sp	the
Son	n.sg	son
of	pr	of
God	n.sg	god
.	sent	.
</s>
</v>
<v at="15:40">
<s>
There	adv	there
were	vbser.past	be
also	adv	also
women	n.pl	woman
looking	vblex.ger	look
on	adv	on
afar	adv	afar
off	adv	off
:	sent	:
</s>
<s>
among	pr	among
whom	prn.rel.an.mf.sp	whom
was	vbser.past.p1.sg	be
Mary	np.ant.f.sg	Mary
Magdalene	unknown	Magdalene
,	cm	,
and	cnjcoo	and
Mary	np.ant.f.sg	Mary
the	det.def.sp	the
mother	n.sg	mother
of	pr	of
James	np.ant.m.sg	James
the	det.def.sp	the
less	adv	less
and	cnjcoo	and
of	pr	of
Joses	unknown	Joses
,	cm	,
and	cnjcoo	and
Salome	unknown	Salome
;	sent	;
</s>
</v>
<v at="15:41">
<s>
(	lpar	(
Who	prn.rel.an.mf.sp	who
also	adv	also
,	cm	,
when	cnjadv	when
he	prn.subj.p3.m.sg	he
was	vbser.past.p1.sg	be
in	adv	in
Galilee	unknown	Galilee
,	cm	,
followed	vblex.past	follow
him	prn.obj.p3.m.sg	him
,	cm	,
and	cnjcoo	and
ministered	unknown	ministered
unto	pr	unto
him	prn.obj.p3.m.sg	him
;	sent	;
</s>
<s>
)	rpar	)
and	cnjcoo	and
many	prn.ind.mf.pl	many
other	det.ind.sp	other
women	n.pl	woman
which	prn.itg.mf.sp	which
came	vblex.past	come
up	adv	up
with	pr	with
him	prn.obj.p3.m.sg	him
unto	pr	unto
Jerusalem	np.top.sg	Jerusalem
.	sent	.
</s>
</v>
<v at="15:42">
<s>
And	cnjcoo	and
now	adv	now
when	cnjadv	when
the	det.def.sp	the
even	adv	even
was	vbser.past.p1.sg	be
come	vblex.pp	come
,	cm	,
because	cnjadv	because
it	prn.subj.p3.nt.sg	it
was	vbser.past.p3.sg	be
the	det.def.sp	the
preparation	n.sg	preparation
,	cm	,
that	prn.dem.mf.sg	that
is	vbser.pres.p3.sg	be
,	cm	,
the day before	adv	the day before
the	det.def.sp	the
sabbath	n.sg	sabbath
,	cm	,
</v>
<v at="15:43">
Joseph	np.cog.sg	Joseph
of	pr	of
Arimathaea	unknown	Arimathaea
,	cm	,
an	det.ind.sg	a
honourable	adj	honourable
counsellor	n.sg	counsellor
,	cm	,
which	prn.itg.mf.sp	which
also	adv	also
waited	vblex.pp	wait
for	pr	for
the	det.def.sp	the
kingdom	n.sg	kingdom
of	pr	of
God	n.sg	god
,	cm	,
came	vblex.past	come
,	cm	,
and	cnjcoo	and
went in	vblex.past	go in
boldly	adv	boldly
unto	pr	unto
Pilate	unknown	Pilate
,	cm	,
and	cnjcoo	and
craved	unknown	craved
the	det.def.sp	the
body	n.sg	body
of	pr	of
Jesus	np.ant.m.sg	Jesus
.	sent	.
</s>
</v>
<v at="15:44">
<s>
And	cnjcoo	and
Pilate	unknown	Pilate
marvelled	unknown	marvelled
if	cnjsub	if
he	prn.subj.p3.m.sg	he
were	vbser.past	be
already	adv	already
dead	adj	dead
:	sent	:
</s>
<s>
and	cnjcoo	and
calling	vblex.pprs	call
unto	pr	unto
him	prn.obj.p3.m.sg	him
the	det.def.sp	the
centurion	n.sg	centurion
,	cm	,
he	prn.subj.p3.m.sg	he
asked	vblex.past	ask
him	prn.obj.p3.m.sg	him
whether	cnjadv	whether
he	prn.subj.p3.m.sg	he
had	vbhaver.past	have
been	vbser.pp	be
any	det.ind.sp	any
while	cnjadv	while
dead	adj	dead
.	sent	.
</s>
</v>
<v at="15:45">
<s>
And	cnjcoo	and
when	cnjadv	when
he	prn.subj.p3.m.sg	he
knew	vblex.past	know
it	prn.obj.p3.nt.sg	it
of	pr	of
the	det.def.sp	the
centurion	n.sg	centurion
,	cm	,
he	prn.subj.p3.m.sg	he
gave	vblex.past	give
the	det.def.sp	the
body	n.sg	body
to	pr	to
Joseph	np.cog.sg	Joseph
.	sent	.
</s>
</v>
<v at="15:46">
<s>
And	cnjcoo	and
he	prn.subj.p3.m.sg	he
bought	vblex.past	buy
fine	adj.sint	fine
linen	n.sg	linen
,	cm	,
and	cnjcoo	and
took	vblex.past	take
him	prn.obj.p3.m.sg	him
down	adv	down
,	cm	,
and	cnjcoo	and
wrapped	vblex.past	wrap
him	prn.obj.p3.m.sg	him
in	pr	in
the	det.def.sp	the
linen	n.sg	linen
,	cm	,
and	cnjcoo	and
laid	vblex.past	lay
him	prn.obj.p3.m.sg	him
in	adv	in
a	det.ind.sg	a
sepulchre	n.sg	sepulchre
which	prn.itg.mf.sp	which
was	vbser.past.p1.sg	be
hewn	unknown	hewn
out of	pr	out of
a	det.ind.sg	a
rock	n.sg	rock
,	cm	,
and	cnjcoo	and
rolled	vblex.past	roll
a	det.ind.sg	a
stone	n.sg	stone
unto	pr	unto
the	det.def.sp	the
door	n.sg	door
of	pr	of
the	det.def.sp	the
sepulchre	n.sg	sepulchre
.	sent	.
</s>
</v>
<v at="15:47">
<s>
And	cnjcoo	and
Mary	np.ant.f.sg	Mary
Magdalene	unknown	Magdalene
and	cnjcoo	and
Mary	np.ant.f.sg	Mary
the	det.def.sp	the
mother	n.sg	mother
of	pr	of
Joses	unknown	Joses
beheld	unknown	beheld
where	adv	where
he	prn.subj.p3.m.sg	he
was	vbser.past.p1.sg	be
laid	vblex.pp	lay
.	sent	.
</s>
</v>
<v at="16:1">
<s>
And	cnjcoo	and
when	cnjadv	when
the	det.def.sp	the
sabbath	n.sg	sabbath
was	vbser.past.p1.sg	be
past	adj	past
,	cm	,
Mary	np.ant.f.sg	Mary
Magdalene	unknown	Magdalene
,	cm	,
and	cnjcoo	and
Mary	np.ant.f.sg	Mary
the	det.def.sp	the
mother	n.sg	mother
of	pr	of
James	np.cog.sg	James
,	cm	,
and	cnjcoo	and
Salome	unknown	Salome
,	cm	,
had	vbhaver.past	have
bought	vblex.pp	buy
sweet	adj.sint	sweet
spices	n.pl	spice
,	cm	,
that	cnjsub	that
they	prn.subj.p3.mf.pl	they
might	vbmod.pres	might
come	vblex.inf	come
and	cnjcoo	and
anoint	vblex.inf	anoint
him	prn.obj.p3.m.sg	him
.	sent	.
</s>
</v>
<v at="16:2">
<s>
And	cnjcoo	and
very early in the morning	adv	very early in the morning
the	det.def.sp	the
first	adj.ord	first
day	n.sg	day
of	pr	of
the	det.def.sp	the
week	n.sg	week
,	cm	,
they	prn.subj.p3.mf.pl	they
came	vblex.past	come
unto	pr	unto
the	det.def.sp	the
sepulchre	n.sg	sepulchre
at	pr	at
the	det.def.sp	the
rising	vblex.subs	rise
of	pr	of
the	det.def.sp	the
sun	n.sg	sun
.	sent	.
</s>
</v>
<v at="16:3">
<s>
And	cnjcoo	and
they	prn.subj.p3.mf.pl	they
said	vblex.past	say
among	pr	among
themselves	prn.ref.p3.mf.pl	themselves
,	cm	,
Who	prn.rel.an.mf.sp	who
shall	vbmod.pres	shall
roll	vblex.inf	roll
us	prn.obj.p1.mf.pl	us
away	adv	away
the	det.def.sp	the
stone	n.sg	stone
from	pr	from
the	det.def.sp	the
door	n.sg	door
of	pr	of
the	det.def.sp	the
sepulchre	n.sg	sepulchre
?	sent	?
</s>
</v>
<v at="16:4">
<s>
And	cnjcoo	and
when	cnjadv	when
they	prn.subj.p3.mf.pl	they
looked	vblex.past	look
,	cm	,
they	prn.subj.p3.mf.pl	they
saw	vblex.past	see
that	cnjsub	that
the	det.def.sp	the
stone	n.sg	stone
was	vbser.past.p3.sg	be
rolled	vblex.pp	roll
away	adv	away
:	sent	:
</s>
<s>
for	pr	for
it	prn.subj.p3.nt.sg	it
was	vbser.past.p1.sg	be
very	preadv	very
great	adj.sint	great
.	sent	.
</s>
</v>
<v at="16:5">
<s>
And	cnjcoo	and
entering	vblex.subs	enter
into	pr	into
the	det.def.sp	the
sepulchre	n.sg	sepulchre
,	cm	,
they	prn.subj.p3.mf.pl	they
saw	vblex.past	see
a	det.ind.sg	a
young	adj.sint	young
man	n.sg	man
sitting	vblex.subs	sit
on the right	pr	on
side	n.sg	side
,	cm	,
clothed	unknown	clothed
in	pr	in
a	det.ind.sg	a
long	adj.sint	long
white	n.sg	white
garment	n.sg	garment
;	sent	;
</s>
<s>
and	cnjcoo	and
they	prn.subj.p3.mf.pl	they
were	vbser.past	be
affrighted	unknown	affrighted
.	sent	.
</s>
</v>
<v at="16:6">
<s>
And	cnjcoo	and
he	prn.subj.p3.m.sg	he
saith	vblex.pres.p3.sg	say
unto	pr	unto
them	prn.obj.p3.mf.pl	them
,	cm	,
Be	vbser.inf	be
not	adv	not
affrighted	unknown	affrighted
:	sent	:
</s>
<s>
Ye	prn.subj.p2.mf.pl	ye
seek	vblex.pres	seek
Jesus	np.ant.m.sg	Jesus
of	pr	of
Nazareth	np.top.sg	Nazareth
,	cm	,
which	prn.itg.mf.sp	which
was	vbser.past.p3.sg	be
crucified	vblex.pp	crucify
:	sent	:
</s>
<s>
he	prn.subj.p3.m.sg	he
is	vbser.pres.p3.sg	be
risen	vblex.pp	rise
;	sent	;
</s>
<s>
he	prn.subj.p3.m.sg	he
is	vbser.pres.p3.sg	be
not	adv	not
here	adv	here
:	sent	:
</s>
<s>
behold	vblex.imp	behold
the	det.def.sp	the
place	n.sg	place
where	adv	where
they	prn.subj.p3.mf.pl	they
laid	vblex.past	lay
him	prn.obj.p3.m.sg	him
.	sent	.
</s>
</v>
<v at="16:7">
<s>
But	cnjcoo	but
go	vblex.inf	go
your	det.pos.sp	your
way	n.sg	way
,	cm	,
tell	vblex.imp	tell
his	adj.pos.pred	his
disciples	n.pl	disciple
and	cnjcoo	and
Peter	np.ant.m.sg	Peter
that	cnjsub	that
he	prn.subj.p3.m.sg	he
goeth	vblex.pres.p3.sg	go
before	pr	before
you	prn.obj.p2.mf.sp	you
into	pr	into
Galilee	unknown	Galilee
:	sent	:
</s>
<s>
there	adv	there
shall	vbmod.pres	shall
ye	prn.subj.p2.mf.pl	ye
see	vblex.inf	see
him	prn.obj.p3.m.sg	him
,	cm	,
as	cnjadv	as
he	prn.subj.p3.m.sg	he
said	vblex.past	say
unto	pr	unto
you	prn.obj.p2.mf.sp	you
.	sent	.
</s>
</v>
<v at="16:8">
<s>
And	cnjcoo	and
they	prn.subj.p3.mf.pl	they
went out	vblex.past	go out
quickly	adv	quickly
,	cm	,
and	cnjcoo	and
fled	vblex.past	flee
from	pr	from
the	det.def.sp	the
sepulchre	n.sg	sepulchre
;	sent	;
</s>
<s>
for	pr	for
they	prn.subj.p3.mf.pl	they
trembled	vblex.past	tremble
and	cnjcoo	and
were	vbser.past	be
amazed	vblex.pp	amaze
:	sent	:
</s>
<s>
neither	cnjcoo	neither
said	vblex.past	say
they	prn.subj.p3.mf.pl	they
any	det.ind.sp	any
thing	n.sg	thing
to	pr	to
any	det.ind.sp	any
man	n.sg	man
;	sent	;
</s>
<s>
for	pr	for
they	prn.subj.p3.mf.pl	they
were afraid	vblex.past.p2.sg	be afraid
.	sent	.
</s>
</v>
<v at="16:9">
<s>
Now	adv	now
when	cnjadv	when
Jesus	np.ant.m.sg	Jesus
was	vbser.past.p1.sg	be
risen	vblex.pp	rise
early	adj.sint	early
the	det.def.sp	the
first	adj.ord	first
day	n.sg	day
of	pr	of
the	det.def.sp	the
week	n.sg	week
,	cm	,
he	prn.subj.p3.m.sg	he
appeared	vblex.past	appear
first	adj.ord	first
to	pr	to
Mary	np.ant.f.sg	Mary
Magdalene	unknown	Magdalene
,	cm	,
out of	pr	out of
whom	prn.rel.an.mf.sp	whom
he	prn.subj.p3.m.sg	he
had	vbhaver.past	have
cast	vblex.pp	cast
seven	num.pl	seven
devils	n.pl	devil
.	sent	.
</s>
</v>
<v at="16:10">
<s>
And	cnjcoo	and
she	prn.subj.p3.f.sg	she
went	vblex.past	go
and	cnjcoo	and
told	vblex.past	tell
them	prn.obj.p3.mf.pl	them
that	prn.rel.an.mf.sp	that
had	vbhaver.past	have
been	vbser.pp	be
with	pr	with
him	prn.obj.p3.m.sg	him
,	cm	,
as	cnjadv	as
they	prn.subj.p3.mf.pl	they
mourned	vblex.past	mourn
and	cnjcoo	and
wept	vblex.past	weep
.	sent	.
</s>
</v>
<v at="16:11">
<s>
And	cnjcoo	and
they	prn.subj.p3.mf.pl	they
,	cm	,
when	cnjadv	when
they	prn.subj.p3.mf.pl	they
had	vbhaver.past	have
heard	vblex.pp	hear
that	cnjsub	that
he	prn.subj.p3.m.sg	he
was	vbser.past.p3.sg	be
alive	adj	alive
,	cm	,
and	cnjcoo	and
had	vbhaver.past	have
been	vbser.pp	be
seen	vblex.pp	see
of	pr	of
her	prn.obj.p3.f.sg	her
,	cm	,
believed	vblex.past	believe
not	adv	not
.	sent	.
</s>
</v>
<v at="16:12">
<s>
After that	adv	after that
he	prn.subj.p3.m.sg	he
appeared	vblex.past	appear
in	pr	in
another	det.ind.sg	another
form	n.sg	form
unto	pr	unto
two	num.pl	two
of	pr	of
them	prn.obj.p3.mf.pl	them
,	cm	,
as	cnjadv	as
they	prn.subj.p3.mf.pl	they
walked	vblex.past	walk
,	cm	,
and	cnjcoo	and
went	vblex.past	go
into	pr	into
the	det.def.sp	the
country	n.sg	country
.	sent	.
</s>
</v>
<v at="16:13">
<s>
And	cnjcoo	and
they	prn.subj.p3.mf.pl	they
went	vblex.past	go
and	cnjcoo	and
told	vblex.past	tell
it	prn.obj.p3.nt.sg	it
unto	pr	unto
the	det.def.sp	the
residue	n.sg	residue
:	sent	:
</s>
<s>
neither	cnjcoo	neither
believed	vblex.past	believe
they	prn.subj.p3.mf.pl	they
them	prn.obj.p3.mf.pl	them
.	sent	.
</s>
</v>
<v at="16:14">
<s>
Afterward	adv	afterward
he	prn.subj.p3.m.sg	he
appeared	vblex.past	appear
unto	pr	unto
the	det.def.sp	the
eleven	num.pl	eleven
as	cnjadv	as
they	prn.subj.p3.mf.pl	they
sat	vblex.past	sit
at	pr	at
meat	n.sg	meat
,	cm	,
and	cnjcoo	and
upbraided	unknown	upbraided
them	prn.obj.p3.mf.pl	them
with	pr	with
their	det.pos.sp	their
unbelief	unknown	unbelief
and	cnjcoo	and
hardness	n.sg	hardness
of	pr	of
heart	n.sg	heart
,	cm	,
because	cnjadv	because
they	prn.subj.p3.mf.pl	they
believed	vblex.past	believe
not	adv	not
them	prn.obj.p3.mf.pl	them
which	prn.itg.mf.sp	which
had	vbhaver.past	have
seen	vblex.pp	see
him	prn.obj.p3.m.sg	him
after	pr	after
he	prn.subj.p3.m.sg	he
was	vbser.past.p1.sg	be
risen	vblex.pp	rise
.	sent	.
</s>
</v>
<v at="16:15">
<s>
And	cnjcoo	and
he	prn.subj.p3.m.sg	he
said	vblex.past	say
unto	pr	unto
them	prn.obj.p3.mf.pl	them
,	cm	,
Go	vblex.imp	go
ye	prn.subj.p2.mf.pl	ye
into	pr	into
all	predet.sp	all
the	det.def.sp	the
world	n.sg	world
,	cm	,
and	cnjcoo	and
preach	vblex.pres	preach
the	det.def.sp	the
gospel	n.sg	gospel
to	pr	to
every	det.ind.sg	every
creature	n.sg	creature
.	sent	.
</s>
</v>
<v at="16:16">
<s>
He	prn.subj.p3.m.sg	prpers
that	cnjsub	that
believeth	unknown	believeth
and	cnjcoo	and
is	vbser.pres.p3.sg	be
baptized	vblex.pp	baptise
shall	vbmod.pres	shall
be	vbser.inf	be
saved	vblex.pp	save
;	sent	;
</s>
<s>
but	cnjcoo	but
he	prn.subj.p3.m.sg	he
that	cnjsub	that
believeth	unknown	believeth
not	adv	not
shall	vbmod.pres	shall
be	vbser.inf	be
damned	adj	damned
.	sent	.
</s>
</v>
<v at="16:17">
<s>
And	cnjcoo	and
these	det.dem.pl	this
signs	n.pl	sign
shall	vbmod.pres	shall
follow	vblex.inf	follow
them	prn.obj.p3.mf.pl	them
that	prn.rel.an.mf.sp	that
believe	vblex.pres	believe
;	sent	;
</s>
<s>
In	pr	in
my	det.pos.sp	my
name	n.sg	name
shall	vbmod.pres	shall
they	prn.subj.p3.mf.pl	they
cast	vblex.inf	cast
out	pr	out
devils	n.pl	devil
;	sent	;
</s>
<s>
they	prn.subj.p3.mf.pl	they
shall	vbmod.pres	shall
speak	vblex.inf	speak
with	pr	with
new	adj.sint	new
tongues	n.pl	tongue
;	sent	;
</s>
</v>
<v at="16:18">
<s>
They	prn.subj.p3.mf.pl	prpers
shall	vbmod.pres	shall
take	vblex.inf	take
up	pr	up
serpents	n.pl	serpent
;	sent	;
</s>
<s>
and	cnjcoo	and
if	cnjsub	if
they	prn.subj.p3.mf.pl	they
drink	vblex.pres	drink
any	det.ind.sp	any
deadly	adj.sint	deadly
thing	n.sg	thing
,	cm	,
it	prn.subj.p3.nt.sg	it
shall	vbmod.pres	shall
not	adv	not
hurt	vblex.inf	hurt
them	prn.obj.p3.mf.pl	them
;	sent	;
</s>
<s>
they	prn.subj.p3.mf.pl	they
shall	vbmod.pres	shall
lay	vblex.inf	lay
hands	n.pl	hand
on	adv	on
the	det.def.sp	the
sick	adj.sint	sick
,	cm	,
and	cnjcoo	and
they	prn.subj.p3.mf.pl	they
shall	vbmod.pres	shall
recover	vblex.inf	recover
.	sent	.
</s>
</v>
<v at="16:19">
<s>
So	preadv	so
then	adv	then
after	pr	after
the	det.def.sp	the
Lord	n.sg	lord
had	vbhaver.past	have
spoken	vblex.pp	speak
unto	pr	unto
them	prn.obj.p3.mf.pl	them
,	cm	,
he	prn.subj.p3.m.sg	he
was	vbser.past.p3.sg	be
received	vblex.pp	receive
up	adv	up
into	pr	into
heaven	n.sg	heaven
,	cm	,
and	cnjcoo	and
sat	vblex.past	sit
on the right hand	adv	on the right hand
of	pr	of
God	n.sg	god
.	sent	.
</s>
</v>
<v at="16:20">
<s>
And	cnjcoo	and
they	prn.subj.p3.mf.pl	they
went	vblex.past	go
forth	adv	forth
,	cm	,
and	cnjcoo	and
preached	vblex.past	preach
every	det.ind.sg	every
where	adv	where
,	cm	,
the	det.def.sp	the
Lord	n.sg	lord
working	vblex.subs	work
with	pr	with
them	prn.obj.p3.mf.pl	them
,	cm	,
and	cnjcoo	and
confirming	vblex.pprs	confirm
the	det.def.sp	the
word	n.sg	word
with	pr	with
signs	n.pl	sign
following	vblex.subs	follow
.	sent	.
</s>
<s>
Amen	n.sg	amen
.	sent	.
</s>
<s>
.	sent	.
</s>
</v>
</doc>
