<doc book="Jonah">
<v at="1:1">
<s>
Now	adv	now
the	det.def.sp	the
word	n.sg	word
of	pr	of
the	det.def.sp	the
LORD	n.sg	lord
came	vblex.past	come
unto	pr	unto
Jonah	np.ant.m.sg	Jonah
the	det.def.sp	the
son	n.sg	son
of	pr	of
Amittai	unknown	Amittai
,	cm	,
saying	vblex.pprs	say
,	cm	,
</v>
<v at="1:2">
Arise	vblex.imp	arise
,	cm	,
go	vblex.imp	go
to	pr	to
Nineveh	unknown	Nineveh
,	cm	,
that	det.dem.sg	that
great	adj.sint	great
city	n.sg	city
,	cm	,
and	cnjcoo	and
cry	vblex.pres	cry
against	pr	against
it	prn.obj.p3.nt.sg	it
;	sent	;
</s>
<s>
for	pr	for
their	det.pos.sp	their
wickedness	unknown	wickedness
is	vbser.pres.p3.sg	be
come	vblex.pp	come
up	adv	up
before	pr	before
me	prn.obj.p1.mf.sg	me
.	sent	.
</s>
</v>
<v at="1:3">
<s>
But	cnjcoo	but
Jonah	np.ant.m.sg	Jonah
rose	vblex.past	rise
up to	pr	up to
flee	vblex.inf	flee
unto	pr	unto
Tarshish	unknown	Tarshish
from	pr	from
the	det.def.sp	the
presence	n.sg	presence
of	pr	of
the	det.def.sp	the
LORD	n.sg	lord
,	cm	,
and	cnjcoo	and
went down	vblex.past	go down
to	pr	to
Joppa	unknown	Joppa
;	sent	;
</s>
<s>
and	cnjcoo	and
he	prn.subj.p3.m.sg	he
found	vblex.past	find
a	det.ind.sg	a
ship	n.sg	ship
going	vblex.subs	go
to	pr	to
Tarshish	unknown	Tarshish
:	sent	:
</s>
<s>
so	cnjadv	so
he	prn.subj.p3.m.sg	he
paid	vblex.past	pay
the	det.def.sp	the
fare	n.sg	fare
thereof	adv	thereof
,	cm	,
and	cnjcoo	and
went down	vblex.past	go down
into	pr	into
it	prn.obj.p3.nt.sg	it
,	cm	,
to	pr	to
go	vblex.inf	go
with	pr	with
them	prn.obj.p3.mf.pl	them
unto	pr	unto
Tarshish	unknown	Tarshish
from	pr	from
the	det.def.sp	the
presence	n.sg	presence
of	pr	of
the	det.def.sp	the
LORD	n.sg	lord
.	sent	.
</s>
</v>
<v at="1:4">
<s>
But	cnjcoo	but
the	det.def.sp	the
LORD	n.sg	lord
sent	vblex.past	send
out	pr	out
a	det.ind.sg	a
great	adj.sint	great
wind	n.sg	wind
into	pr	into
the	det.def.sp	the
sea	n.sg	sea
,	cm	,
and	cnjcoo	and
there	adv	there
was	vbser.past.p1.sg	be
a	det.ind.sg	a
mighty	adj.sint	mighty
tempest	unknown	tempest
in	pr	in
the	det.def.sp	the
sea	n.sg	sea
,	cm	,
so that	cnjadv	so that
the	det.def.sp	the
ship	n.sg	ship
was	vbser.past.p1.sg	be
like	pr	like
to	pr	to
be	vbser.inf	be
broken	vblex.pp	break
.	sent	.
</s>
</v>
<v at="1:5">
<s>
Then	adv	then
the	det.def.sp	the
mariners	unknown	mariners
were afraid	vblex.past.p2.pl	be afraid
,	cm	,
and	cnjcoo	and
cried	vblex.past	cry
every	det.ind.sg	every
man	n.sg	man
unto	pr	unto
his	det.pos.sp	his
god	n.sg	god
,	cm	,
and	cnjcoo	and
cast	vblex.past	cast
forth	adv	forth
the	det.def.sp	the
wares	unknown	wares
that	cnjsub	that
were	vbser.past	be
in	pr	in
the	det.def.sp	the
ship	n.sg	ship
into	pr	into
the	det.def.sp	the
sea	n.sg	sea
,	cm	,
to	pr	to
lighten	vblex.inf	lighten
it	prn.obj.p3.nt.sg	it
of	pr	of
them	prn.obj.p3.mf.pl	them
.	sent	.
</s>
<s>
But	cnjcoo	but
Jonah	np.ant.m.sg	Jonah
was	vbser.past.p1.sg	be
gone down	vblex.pp	go down
into	pr	into
the	det.def.sp	the
sides	n.pl	side
of	pr	of
the	det.def.sp	the
ship	n.sg	ship
;	sent	;
</s>
<s>
and	cnjcoo	and
he	prn.subj.p3.m.sg	he
lay	vblex.pres	lay
,	cm	,
and	cnjcoo	and
was	vbser.past.p1.sg	be
fast	adj.sint	fast
asleep	adj	asleep
.	sent	.
</s>
</v>
<v at="1:6">
<s>
So	cnjadv	so
the	det.def.sp	the
shipmaster	unknown	shipmaster
came	vblex.past	come
to	pr	to
him	prn.obj.p3.m.sg	him
,	cm	,
and	cnjcoo	and
said	vblex.past	say
unto	pr	unto
him	prn.obj.p3.m.sg	him
,	cm	,
What	prn.rel.nn.mf.sg	what
meanest	adj.sint.sup	mean
thou	prn.subj.p2.mf.sg	thou
,	cm	,
O	unknown	O
sleeper	unknown	sleeper
?	sent	?
</s>
<s>
arise	vblex.imp	arise
,	cm	,
call	vblex.inf	call
upon	pr	upon
thy	det.pos.sp	thy
God	n.sg	god
,	cm	,
if	cnjsub	if
so	cnjadv	so
be	vbser.inf	be
that	det.dem.sg	that
God	n.sg	god
will	vbmod.pres	will
think	vblex.inf	think
upon	pr	upon
us	prn.obj.p1.mf.pl	us
,	cm	,
that	cnjsub	that
we	prn.subj.p1.mf.pl	we
perish	vblex.inf	perish
not	adv	not
.	sent	.
</s>
</v>
<v at="1:7">
<s>
And	cnjcoo	and
they	prn.subj.p3.mf.pl	they
said	vblex.past	say
every	det.ind.sg	every
one	prn.dem.mf.sg	one
to	pr	to
his	det.pos.sp	his
fellow	n.sg	fellow
,	cm	,
Come	vblex.imp	come
,	cm	,
and	cnjcoo	and
let	vblex.past	let
us	prn.obj.p1.mf.pl	us
cast	vblex.pp	cast
lots	n.pl	lot
,	cm	,
that	cnjsub	that
we	prn.subj.p1.mf.pl	we
may	vbmod.pres	may
know	vblex.inf	know
for	pr	for
whose	det.pos.mf.sp	whose
cause	n.sg	cause
this	det.dem.sg	this
evil	n.sg	evil
is	vbser.pres.p3.sg	be
upon	pr	upon
us	prn.obj.p1.mf.pl	us
.	sent	.
</s>
<s>
So	cnjadv	so
they	prn.subj.p3.mf.pl	they
cast	vblex.past	cast
lots	n.pl	lot
,	cm	,
and	cnjcoo	and
the	det.def.sp	the
lot	n.sg	lot
fell	vblex.past	fall
upon	pr	upon
Jonah	np.ant.m.sg	Jonah
.	sent	.
</s>
</v>
<v at="1:8">
<s>
Then	adv	then
said	vblex.past	say
they	prn.subj.p3.mf.pl	they
unto	pr	unto
him	prn.obj.p3.m.sg	him
,	cm	,
Tell	vblex.inf	tell
us	prn.obj.p1.mf.pl	us
,	cm	,
we	prn.subj.p1.mf.pl	we
pray	vblex.pres	pray
thee	prn.obj.p2.mf.sg	thou
,	cm	,
for	pr	for
whose	det.pos.mf.sp	whose
cause	n.sg	cause
this	det.dem.sg	this
evil	n.sg	evil
is	vbser.pres.p3.sg	be
upon	pr	upon
us	prn.obj.p1.mf.pl	us
;	sent	;
</s>
<s>
What	prn.rel.nn.mf.sg	what
is	vbser.pres.p3.sg	be
thine	det.pos.sp	thine
occupation	n.sg	occupation
?	sent	?
</s>
<s>
and	cnjcoo	and
whence	adv.itg	whence
comest	unknown	comest
thou	prn.subj.p2.mf.sg	thou
?	sent	?
</s>
<s>
what	prn.rel.nn.mf.sg	what
is	vbser.pres.p3.sg	be
thy	det.pos.sp	thy
country	n.sg	country
?	sent	?
</s>
<s>
and	cnjcoo	and
of	pr	of
what	det.itg.sp	what
people	n.pl	person
art	vbser.pres.p2.sg	be
thou	prn.subj.p2.mf.sg	thou
?	sent	?
</s>
</v>
<v at="1:9">
<s>
And	cnjcoo	and
he	prn.subj.p3.m.sg	he
said	vblex.past	say
unto	pr	unto
them	prn.obj.p3.mf.pl	them
,	cm	,
I	prn.subj.p1.mf.sg.min	prpers
am	vbser.pres.p1.sg	be
an	det.ind.sg	a
Hebrew	n.sg	hebrew
;	sent	;
</s>
<s>
and	cnjcoo	and
I	prn.subj.p1.mf.sg.min	prpers
fear	vblex.pres	fear
the	det.def.sp	the
LORD	n.sg	lord
,	cm	,
the	det.def.sp	the
God	n.sg	god
of	pr	of
heaven	n.sg	heaven
,	cm	,
which	prn.itg.mf.sp	which
hath	vbhaver.pres.p3.sg	have
made	vblex.past	make
the	det.def.sp	the
sea	n.sg	sea
and	cnjcoo	and
the	det.def.sp	the
dry	adj.sint	dry
land	n.sg	land
.	sent	.
</s>
</v>
<v at="1:10">
<s>
Then	adv	then
were	vbser.past	be
the	det.def.sp	the
men	n.pl	man
exceedingly	adv	exceedingly
afraid	adj	afraid
,	cm	,
and	cnjcoo	and
said	vblex.past	say
unto	pr	unto
him	prn.obj.p3.m.sg	him
,	cm	,
Why	adv.itg	why
hast	vbhaver.pres.p2.sg	have
thou	prn.subj.p2.mf.sg	thou
done	vblex.pp	do
this	prn.dem.mf.sg	this
?	sent	?
</s>
<s>
For	pr	for
the	det.def.sp	the
men	n.pl	man
knew	vblex.past	know
that	cnjsub	that
he	prn.subj.p3.m.sg	he
fled	vblex.past	flee
from	pr	from
the	det.def.sp	the
presence	n.sg	presence
of	pr	of
the	det.def.sp	the
LORD	n.sg	lord
,	cm	,
because	cnjadv	because
he	prn.subj.p3.m.sg	he
had	vbhaver.past	have
told	vblex.pp	tell
them	prn.obj.p3.mf.pl	them
.	sent	.
</s>
</v>
<v at="1:11">
<s>
Then	adv	then
said	vblex.past	say
they	prn.subj.p3.mf.pl	they
unto	pr	unto
him	prn.obj.p3.m.sg	him
,	cm	,
What	prn.rel.nn.mf.sg	what
shall	vbmod.pres	shall
we	prn.subj.p1.mf.pl	we
do	vblex.inf	do
unto	pr	unto
thee	prn.obj.p2.mf.sg	thou
,	cm	,
that	cnjsub	that
the	det.def.sp	the
sea	n.sg	sea
may	vbmod.pres	may
be	vbser.inf	be
calm	adj.sint	calm
unto	pr	unto
us	prn.obj.p1.mf.pl	us
?	sent	?
</s>
<s>
for	pr	for
the	det.def.sp	the
sea	n.sg	sea
wrought	unknown	wrought
,	cm	,
and	cnjcoo	and
was	vbser.past.p1.sg	be
tempestuous	unknown	tempestuous
.	sent	.
</s>
</v>
<v at="1:12">
<s>
And	cnjcoo	and
he	prn.subj.p3.m.sg	he
said	vblex.past	say
unto	pr	unto
them	prn.obj.p3.mf.pl	them
,	cm	,
Take	vblex.imp	take
me	prn.obj.p1.mf.sg	me
up	adv	up
,	cm	,
and	cnjcoo	and
cast	vblex.past	cast
me	prn.obj.p1.mf.sg	me
forth	adv	forth
into	pr	into
the	det.def.sp	the
sea	n.sg	sea
;	sent	;
</s>
<s>
so	cnjadv	so
shall	vbmod.pres	shall
the	det.def.sp	the
sea	n.sg	sea
be	vbser.inf	be
calm	adj.sint	calm
unto	pr	unto
you	prn.obj.p2.mf.sp	you
:	sent	:
</s>
<s>
for	pr	for
I	prn.subj.p1.mf.sg.min	prpers
know	vblex.pres	know
that	cnjsub	that
for	pr	for
my	det.pos.sp	my
sake	n.sg	sake
this	prn.dem.mf.sg	this
great	adj.sint	great
tempest	unknown	tempest
is	vbser.pres.p3.sg	be
upon	pr	upon
you	prn.subj.p2.mf.sp	you
.	sent	.
</s>
</v>
<v at="1:13">
<s>
Nevertheless	adv	nevertheless
the	det.def.sp	the
men	n.pl	man
rowed	vblex.past	row
hard	adj.sint	hard
to	pr	to
bring	vblex.inf	bring
it	prn.obj.p3.nt.sg	it
to	pr	to
the	det.def.sp	the
land	n.sg	land
;	sent	;
</s>
<s>
but	cnjcoo	but
they	prn.subj.p3.mf.pl	they
could	vbmod.past	can
not	adv	not
:	sent	:
</s>
<s>
for	pr	for
the	det.def.sp	the
sea	n.sg	sea
wrought	unknown	wrought
,	cm	,
and	cnjcoo	and
was	vbser.past.p1.sg	be
tempestuous	unknown	tempestuous
against	pr	against
them	prn.obj.p3.mf.pl	them
.	sent	.
</s>
</v>
<v at="1:14">
<s>
Wherefore	unknown	Wherefore
they	prn.subj.p3.mf.pl	they
cried	vblex.past	cry
unto	pr	unto
the	det.def.sp	the
LORD	n.sg	lord
,	cm	,
and	cnjcoo	and
said	vblex.past	say
,	cm	,
We	prn.subj.p1.mf.pl	prpers
beseech	unknown	beseech
thee	prn.obj.p2.mf.sg	thou
,	cm	,
O	unknown	O
LORD	n.sg	lord
,	cm	,
we	prn.subj.p1.mf.pl	we
beseech	unknown	beseech
thee	prn.obj.p2.mf.sg	thou
,	cm	,
let	vblex.imp	let
us	prn.obj.p1.mf.pl	us
not	adv	not
perish	vblex.inf	perish
for	pr	for
this	det.dem.sg	this
man	n.sg	man
's	gen	's
life	n.sg	life
,	cm	,
and	cnjcoo	and
lay	vblex.pres	lay
not	adv	not
upon	pr	upon
us	prn.obj.p1.mf.pl	us
innocent	adj	innocent
blood	n.sg	blood
:	sent	:
</s>
<s>
for	pr	for
thou	prn.subj.p2.mf.sg	thou
,	cm	,
O	unknown	O
LORD	n.sg	lord
,	cm	,
hast	vbhaver.pres.p2.sg	have
done	vblex.pp	do
as	cnjadv	as
it	prn.subj.p3.nt.sg	it
pleased	vblex.past	please
thee	prn.obj.p2.mf.sg	thou
.	sent	.
</s>
</v>
<v at="1:15">
<s>
So	cnjadv	so
they	prn.subj.p3.mf.pl	they
took	vblex.past	take
up	pr	up
Jonah	np.ant.m.sg	Jonah
,	cm	,
and	cnjcoo	and
cast	vblex.past	cast
him	prn.obj.p3.m.sg	him
forth	adv	forth
into	pr	into
the	det.def.sp	the
sea	n.sg	sea
:	sent	:
</s>
<s>
and	cnjcoo	and
the	det.def.sp	the
sea	n.sg	sea
ceased	vblex.past	cease
from	pr	from
her	prn.obj.p3.f.sg	her
raging	vblex.subs	rage
.	sent	.
</s>
</v>
<v at="1:16">
<s>
Then	adv	then
the	det.def.sp	the
men	n.pl	man
feared	vblex.past	fear
the	det.def.sp	the
LORD	n.sg	lord
exceedingly	adv	exceedingly
,	cm	,
and	cnjcoo	and
offered	vblex.past	offer
a	det.ind.sg	a
sacrifice	n.sg	sacrifice
unto	pr	unto
the	det.def.sp	the
LORD	n.sg	lord
,	cm	,
and	cnjcoo	and
made	vblex.past	make
vows	vblex.pres.p3.sg	vow
.	sent	.
</s>
</v>
<v at="1:17">
<s>
Now	adv	now
the	det.def.sp	the
LORD	n.sg	lord
had	vbhaver.past	have
prepared	vblex.pp	prepare
a	det.ind.sg	a
great	adj.sint	great
fish	n.pl	fish
to	pr	to
swallow	vblex.inf	swallow
up	pr	up
Jonah	np.ant.m.sg	Jonah
.	sent	.
</s>
<s>
And	cnjcoo	and
Jonah	np.ant.m.sg	Jonah
was	vbser.past.p3.sg	be
in	pr	in
the	det.def.sp	the
belly	n.sg	belly
of	pr	of
the	det.def.sp	the
fish	n.sg	fish
three	num.pl	three
days	n.pl	day
and	cnjcoo	and
three	num.pl	three
nights	n.pl	night
.	sent	.
</s>
</v>
<v at="2:1">
<s>
Then	adv	then
Jonah	np.ant.m.sg	Jonah
prayed	vblex.past	pray
unto	pr	unto
the	det.def.sp	the
LORD	n.sg	lord
his	det.pos.sp	his
God	n.sg	god
out of	pr	out of
the	det.def.sp	the
fish	n.pl	fish
's	gen	's
belly	n.sg	belly
,	cm	,
</v>
<v at="2:2">
And	cnjcoo	and
said	vblex.past	say
,	cm	,
I	prn.subj.p1.mf.sg.min	prpers
cried	vblex.past	cry
by	pr	by
reason	n.sg	reason
of	pr	of
mine	adj.pos.pred	mine
affliction	n.sg	affliction
unto	pr	unto
the	det.def.sp	the
LORD	n.sg	lord
,	cm	,
and	cnjcoo	and
he	prn.subj.p3.m.sg	he
heard	vblex.past	hear
me	prn.obj.p1.mf.sg	me
;	sent	;
</s>
<s>
out of	pr	out of
the	det.def.sp	the
belly	n.sg	belly
of	pr	of
hell	n.sg	hell
cried	vblex.pp	cry
I	prn.subj.p1.mf.sg.min	prpers
,	cm	,
and	cnjcoo	and
thou	prn.subj.p2.mf.sg	thou
heardest	unknown	heardest
my	det.pos.sp	my
voice	n.sg	voice
.	sent	.
</s>
</v>
<v at="2:3">
<s>
For	pr	for
thou	prn.subj.p2.mf.sg	thou
hadst	vbhaver.past	have
cast	vblex.pp	cast
me	prn.obj.p1.mf.sg	me
into	pr	into
the	det.def.sp	the
deep	adj.sint	deep
,	cm	,
in	adv	in
the	det.def.sp	the
midst	unknown	midst
of	pr	of
the	det.def.sp	the
seas	n.pl	sea
;	sent	;
</s>
<s>
and	cnjcoo	and
the	det.def.sp	the
floods	n.pl	flood
compassed	unknown	compassed
me	prn.obj.p1.mf.sg	me
about	adv	about
:	sent	:
</s>
<s>
all	prn.qnt.mf.sp	all
thy	det.pos.sp	thy
billows	unknown	billows
and	cnjcoo	and
thy	det.pos.sp	thy
waves	n.pl	wave
passed	vblex.past	pass
over	pr	over
me	prn.obj.p1.mf.sg	me
.	sent	.
</s>
</v>
<v at="2:4">
<s>
Then	adv	then
I	prn.subj.p1.mf.sg.min	prpers
said	vblex.past	say
,	cm	,
I	prn.subj.p1.mf.sg.min	prpers
am	vbser.pres.p1.sg	be
cast	vblex.pp	cast
out of	pr	out of
thy	det.pos.sp	thy
sight	n.sg	sight
;	sent	;
</s>
<s>
yet	adv	yet
I	prn.subj.p1.mf.sg.min	prpers
will	vbmod.pres	will
look	vblex.inf	look
again	adv	again
toward	unknown	toward
thy	det.pos.sp	thy
holy	adj.sint	holy
temple	n.sg	temple
.	sent	.
</s>
</v>
<v at="2:5">
<s>
The	det.def.sp	the
waters	n.pl	water
compassed	unknown	compassed
me	prn.obj.p1.mf.sg	me
about	adv	about
,	cm	,
even	adv	even
to	pr	to
the	det.def.sp	the
soul	n.sg	soul
:	sent	:
</s>
<s>
the	det.def.sp	the
depth	n.sg	depth
closed	vblex.past	close
me	prn.obj.p1.mf.sg	me
round	vblex.inf	round
about	adv	about
,	cm	,
the	det.def.sp	the
weeds	n.pl	weed
were	vbser.past	be
wrapped	vblex.pp	wrap
about	pr	about
my	det.pos.sp	my
head	n.sg	head
.	sent	.
</s>
</v>
<v at="2:6">
<s>
I	prn.subj.p1.mf.sg	prpers
went down	vblex.past	go down
to	pr	to
the	det.def.sp	the
bottoms	n.pl	bottom
of	pr	of
the	det.def.sp	the
mountains	n.pl	mountain
;	sent	;
</s>
<s>
the	det.def.sp	the
earth	n.sg	earth
with	pr	with
her	det.pos.sp	her
bars	n.pl	bar
was	vbser.past.p1.sg	be
about	pr	about
me	prn.obj.p1.mf.sg	me
for ever	adv	for ever
:	sent	:
</s>
<s>
yet	adv	yet
hast	vbhaver.pres.p2.sg	have
thou	prn.subj.p2.mf.sg	thou
brought	vblex.pp	bring
up	pr	up
my	det.pos.sp	my
life	n.sg	life
from	pr	from
corruption	n.sg	corruption
,	cm	,
O	unknown	O
LORD	n.sg	lord
my	det.pos.sp	my
God	n.sg	god
.	sent	.
</s>
</v>
<v at="2:7">
<s>
When	adv.itg	when
my	det.pos.sp	my
soul	n.sg	soul
fainted	unknown	fainted
within	pr	within
me	prn.obj.p1.mf.sg	me
I	prn.subj.p1.mf.sg.min	prpers
remembered	vblex.past	remember
the	det.def.sp	the
LORD	n.sg	lord
:	sent	:
</s>
<s>
and	cnjcoo	and
my	det.pos.sp	my
prayer	n.sg	prayer
came in	vblex.past	come in
unto	pr	unto
thee	prn.obj.p2.mf.sg	thou
,	cm	,
into	pr	into
thine	det.pos.sp	thine
holy	adj.sint	holy
temple	n.sg	temple
.	sent	.
</s>
</v>
<v at="2:8">
<s>
They	prn.subj.p3.mf.pl	prpers
that	cnjsub	that
observe	vblex.inf	observe
lying	unknown	lying
vanities	n.pl	vanity
forsake	unknown	forsake
their	det.pos.sp	their
own	adj	own
mercy	n.sg	mercy
.	sent	.
</s>
</v>
<v at="2:9">
<s>
But	cnjcoo	but
I	prn.subj.p1.mf.sg.min	prpers
will	vbmod.pres	will
sacrifice	vblex.inf	sacrifice
unto	pr	unto
thee	prn.obj.p2.mf.sg	thou
with	pr	with
the	det.def.sp	the
voice	n.sg	voice
of	pr	of
thanksgiving	unknown	thanksgiving
;	sent	;
</s>
<s>
I	prn.subj.p1.mf.sg	prpers
will	vbmod.pres	will
pay	vblex.inf	pay
that	cnjsub	that
that	cnjsub	that
I	prn.subj.p1.mf.sg.min	prpers
have	vbhaver.inf	have
vowed	vblex.pp	vow
.	sent	.
</s>
<s>
Salvation	n.sg	salvation
is	vbser.pres.p3.sg	be
of	pr	of
the	det.def.sp	the
LORD	n.sg	lord
.	sent	.
</s>
</v>
<v at="2:10">
<s>
And	cnjcoo	and
the	det.def.sp	the
LORD	n.sg	lord
spake	vblex.past	speak
unto	pr	unto
the	det.def.sp	the
fish	n.pl	fish
,	cm	,
and	cnjcoo	and
it	prn.subj.p3.nt.sg	it
vomited	vblex.past	vomit
out	pr	out
Jonah	np.ant.m.sg	Jonah
upon	pr	upon
the	det.def.sp	the
dry	adj.sint	dry
land	n.sg	land
.	sent	.
</s>
</v>
<v at="3:1">
<s>
And	cnjcoo	and
the	det.def.sp	the
word	n.sg	word
of	pr	of
the	det.def.sp	the
LORD	n.sg	lord
came	vblex.past	come
unto	pr	unto
Jonah	np.ant.m.sg	Jonah
the second time	adv	the second time
,	cm	,
saying	vblex.ger	say
,	cm	,
</v>
<v at="3:2">
Arise	vblex.imp	arise
,	cm	,
go	vblex.imp	go
unto	pr	unto
Nineveh	unknown	Nineveh
,	cm	,
that	det.dem.sg	that
great	adj.sint	great
city	n.sg	city
,	cm	,
and	cnjcoo	and
preach	vblex.pres	preach
unto	pr	unto
it	prn.obj.p3.nt.sg	it
the	det.def.sp	the
preaching	vblex.subs	preach
that	cnjsub	that
I	prn.subj.p1.mf.sg.min	prpers
bid	vblex.past	bid
thee	prn.obj.p2.mf.sg	thou
.	sent	.
</s>
</v>
<v at="3:3">
<s>
So	cnjadv	so
Jonah	np.ant.m.sg	Jonah
arose	vblex.past	arise
,	cm	,
and	cnjcoo	and
went	vblex.past	go
unto	pr	unto
Nineveh	unknown	Nineveh
,	cm	,
according to	pr	according to
the	det.def.sp	the
word	n.sg	word
of	pr	of
the	det.def.sp	the
LORD	n.sg	lord
.	sent	.
</s>
<s>
Now	adv	now
Nineveh	unknown	Nineveh
was	vbser.past.p1.sg	be
an	det.ind.sg	a
exceeding	vblex.pprs	exceed
great	adj.sint	great
city	n.sg	city
of	pr	of
three	num.pl	three
days	n.pl	day
'	gen	's
journey	n.sg	journey
.	sent	.
</s>
</v>
<v at="3:4">
<s>
And	cnjcoo	and
Jonah	np.ant.m.sg	Jonah
began	vblex.past	begin
to	pr	to
enter	vblex.inf	enter
into	pr	into
the	det.def.sp	the
city	n.sg	city
a	det.ind.sg	a
day	n.sg	day
's	gen	's
journey	n.sg	journey
,	cm	,
and	cnjcoo	and
he	prn.subj.p3.m.sg	he
cried	vblex.past	cry
,	cm	,
and	cnjcoo	and
said	vblex.past	say
,	cm	,
Yet	cnjadv	yet
forty	num.pl	forty
days	n.pl	day
,	cm	,
and	cnjcoo	and
Nineveh	unknown	Nineveh
shall	vbmod.pres	shall
be	vbser.inf	be
overthrown	vblex.pp	overthrow
.	sent	.
</s>
</v>
<v at="3:5">
<s>
So	cnjadv	so
the	det.def.sp	the
people	n.pl	person
of	pr	of
Nineveh	unknown	Nineveh
believed	vblex.past	believe
God	n.sg	god
,	cm	,
and	cnjcoo	and
proclaimed	vblex.past	proclaim
a	det.ind.sg	a
fast	adj.sint	fast
,	cm	,
and	cnjcoo	and
put	vblex.past	put
on	adv	on
sackcloth	unknown	sackcloth
,	cm	,
from	pr	from
the	det.def.sp	the
greatest	adj.sint.sup	great
of	pr	of
them	prn.obj.p3.mf.pl	them
even	adv	even
to	pr	to
the	det.def.sp	the
least	adv	least
of	pr	of
them	prn.obj.p3.mf.pl	them
.	sent	.
</s>
</v>
<v at="3:6">
<s>
For	pr	for
word	n.sg	word
came	vblex.past	come
unto	pr	unto
the	det.def.sp	the
king	n.sg	king
of	pr	of
Nineveh	unknown	Nineveh
,	cm	,
and	cnjcoo	and
he	prn.subj.p3.m.sg	he
arose	vblex.past	arise
from	pr	from
his	det.pos.sp	his
throne	n.sg	throne
,	cm	,
and	cnjcoo	and
he	prn.subj.p3.m.sg	he
laid	vblex.past	lay
his	det.pos.sp	his
robe	n.sg	robe
from	pr	from
him	prn.obj.p3.m.sg	him
,	cm	,
and	cnjcoo	and
covered	vblex.past	cover
him	prn.obj.p3.m.sg	him
with	pr	with
sackcloth	unknown	sackcloth
,	cm	,
and	cnjcoo	and
sat	vblex.past	sit
in	pr	in
ashes	n.pl	ash
.	sent	.
</s>
</v>
<v at="3:7">
<s>
And	cnjcoo	and
he	prn.subj.p3.m.sg	he
caused	vblex.past	cause
it	prn.obj.p3.nt.sg	it
to	pr	to
be	vbser.inf	be
proclaimed	vblex.pp	proclaim
and	cnjcoo	and
published	vblex.pp	publish
through	pr	through
Nineveh	unknown	Nineveh
by	pr	by
the	det.def.sp	the
decree	n.sg	decree
of	pr	of
the	det.def.sp	the
king	n.sg	king
and	cnjcoo	and
his	det.pos.sp	his
nobles	unknown	nobles
,	cm	,
saying	vblex.ger	say
,	cm	,
Let	vblex.imp	let
neither	cnjcoo	neither
man	n.sg	man
nor	cnjcoo	nor
beast	n.sg	beast
,	cm	,
herd	n.sg	herd
nor	cnjcoo	nor
flock	n.sg	flock
,	cm	,
taste	vblex.imp	taste
any	det.ind.sp	any
thing	n.sg	thing
:	sent	:
</s>
<s>
let	vblex.imp	let
them	prn.obj.p3.mf.pl	them
not	adv	not
feed	vblex.inf	feed
,	cm	,
nor	cnjcoo	nor
drink	n.sg	drink
water	n.sg	water
:	sent	:
</s>
</v>
<v at="3:8">
<s>
But	cnjcoo	but
let	vblex.past	let
man	n.sg	man
and	cnjcoo	and
beast	n.sg	beast
be	vbser.inf	be
covered	vblex.pp	cover
with	pr	with
sackcloth	unknown	sackcloth
,	cm	,
and	cnjcoo	and
cry	vblex.pres	cry
mightily	unknown	mightily
unto	pr	unto
God	n.sg	god
:	sent	:
</s>
<s>
yea	unknown	yea
,	cm	,
let	vblex.imp	let
them	prn.obj.p3.mf.pl	them
turn	vblex.inf	turn
every	det.ind.sg	every
one	prn.dem.mf.sg	one
from	pr	from
his	det.pos.sp	his
evil	n.sg	evil
way	n.sg	way
,	cm	,
and	cnjcoo	and
from	pr	from
the	det.def.sp	the
violence	n.sg	violence
that	prn.rel.an.mf.sp	that
is	vbser.pres.p3.sg	be
in	pr	in
their	det.pos.sp	their
hands	n.pl	hand
.	sent	.
</s>
</v>
<v at="3:9">
<s>
Who	prn.rel.an.mf.sp	who
can	vbmod.pres	can
tell	vblex.inf	tell
if	cnjsub	if
God	n.sg	god
will	vbmod.pres	will
turn	vblex.inf	turn
and	cnjcoo	and
repent	unknown	repent
,	cm	,
and	cnjcoo	and
turn	n.sg	turn
away from	pr	away from
his	det.pos.sp	his
fierce	adj.sint	fierce
anger	n.sg	anger
,	cm	,
that	prn.dem.mf.sg	that
we	prn.subj.p1.mf.pl	we
perish	vblex.inf	perish
not	adv	not
?	sent	?
</s>
</v>
<v at="3:10">
<s>
And	cnjcoo	and
God	n.sg	god
saw	vblex.past	see
their	det.pos.sp	their
works	n.pl	work
,	cm	,
that	cnjsub	that
they	prn.subj.p3.mf.pl	they
turned	vblex.past	turn
from	pr	from
their	det.pos.sp	their
evil	n.sg	evil
way	n.sg	way
;	sent	;
</s>
<s>
and	cnjcoo	and
God	n.sg	god
repented	unknown	repented
of	pr	of
the	det.def.sp	the
evil	n.sg	evil
,	cm	,
that	prn.rel.an.mf.sp	that
he	prn.subj.p3.m.sg	he
had	vbhaver.past	have
said	vblex.pp	say
that	cnjsub	that
he	prn.subj.p3.m.sg	he
would	vbmod.past	will
do	vblex.inf	do
unto	pr	unto
them	prn.obj.p3.mf.pl	them
;	sent	;
</s>
<s>
and	cnjcoo	and
he	prn.subj.p3.m.sg	he
did	vblex.past	do
it	prn.obj.p3.nt.sg	it
not	adv	not
.	sent	.
</s>
</v>
<v at="4:1">
<s>
But	cnjcoo	but
it	prn.subj.p3.nt.sg	it
displeased	vblex.past	displease
Jonah	np.ant.m.sg	Jonah
exceedingly	adv	exceedingly
,	cm	,
and	cnjcoo	and
he	prn.subj.p3.m.sg	he
was	vbser.past.p1.sg	be
very	preadv	very
angry	adj.sint	angry
.	sent	.
</s>
</v>
<v at="4:2">
<s>
And	cnjcoo	and
he	prn.subj.p3.m.sg	he
prayed	vblex.past	pray
unto	pr	unto
the	det.def.sp	the
LORD	n.sg	lord
,	cm	,
and	cnjcoo	and
said	vblex.past	say
,	cm	,
I	prn.subj.p1.mf.sg.min	prpers
pray	vblex.pres	pray
thee	prn.obj.p2.mf.sg	thou
,	cm	,
O	unknown	O
LORD	n.sg	lord
,	cm	,
was	vbser.past.p3.sg	be
not	adv	not
this	prn.dem.mf.sg	this
my	det.pos.sp	my
saying	n.sg	saying
,	cm	,
when	cnjadv	when
I	prn.subj.p1.mf.sg.min	prpers
was	vbser.past.p1.sg	be
yet	adv	yet
in	pr	in
my	det.pos.sp	my
country	n.sg	country
?	sent	?
</s>
<s>
Therefore	adv	therefore
I	prn.subj.p1.mf.sg.min	prpers
fled	vblex.past	flee
before	adv	before
unto	pr	unto
Tarshish	unknown	Tarshish
:	sent	:
</s>
<s>
for	pr	for
I	prn.subj.p1.mf.sg.min	prpers
knew	vblex.past	know
that	cnjsub	that
thou	prn.subj.p2.mf.sg	thou
art	vbser.pres.p2.sg	be
a	det.ind.sg	a
gracious	adj	gracious
God	n.sg	god
,	cm	,
and	cnjcoo	and
merciful	unknown	merciful
,	cm	,
slow	adj.sint	slow
to	pr	to
anger	vblex.inf	anger
,	cm	,
and	cnjcoo	and
of	pr	of
great	adj.sint	great
kindness	n.sg	kindness
,	cm	,
and	cnjcoo	and
repentest	unknown	repentest
thee	prn.obj.p2.mf.sg	thou
of	pr	of
the	det.def.sp	the
evil	n.sg	evil
.	sent	.
</s>
</v>
<v at="4:3">
<s>
Therefore	adv	therefore
now	adv	now
,	cm	,
O	unknown	O
LORD	n.sg	lord
,	cm	,
take	vblex.imp	take
,	cm	,
I	prn.subj.p1.mf.sg.min	prpers
beseech	unknown	beseech
thee	prn.obj.p2.mf.sg	thou
,	cm	,
my	det.pos.sp	my
life	n.sg	life
from	pr	from
me	prn.obj.p1.mf.sg	me
;	sent	;
</s>
<s>
for	pr	for
it	prn.subj.p3.nt.sg	it
is	vbser.pres.p3.sg	be
better	adj.sint.comp	good
for	pr	for
me	prn.obj.p1.mf.sg	me
to	pr	to
die	vblex.inf	die
than	cnjsub	than
to	pr	to
live	vblex.inf	live
.	sent	.
</s>
</v>
<v at="4:4">
<s>
Then	adv	then
said	vblex.past	say
the	det.def.sp	the
LORD	n.sg	lord
,	cm	,
Doest	vblex.pres	do
thou	prn.subj.p2.mf.sg	thou
well	adv	well
to	pr	to
be	vbser.inf	be
angry	adj.sint	angry
?	sent	?
</s>
</v>
<v at="4:5">
<s>
So	cnjadv	so
Jonah	np.ant.m.sg	Jonah
went out	vblex.past	go out
of	pr	of
the	det.def.sp	the
city	n.sg	city
,	cm	,
and	cnjcoo	and
sat	vblex.past	sit
on	pr	on
the	det.def.sp	the
east	adj	east
side	n.sg	side
of	pr	of
the	det.def.sp	the
city	n.sg	city
,	cm	,
and	cnjcoo	and
there	adv	there
made	vblex.past	make
him	prn.obj.p3.m.sg	him
a	det.ind.sg	a
booth	n.sg	booth
,	cm	,
and	cnjcoo	and
sat	vblex.past	sit
under	pr	under
it	prn.obj.p3.nt.sg	it
in	pr	in
the	det.def.sp	the
shadow	n.sg	shadow
,	cm	,
till	n.sg	till
he	prn.subj.p3.m.sg	he
might	vbmod.pres	might
see	vblex.inf	see
what	prn.rel.nn.mf.sg	what
would	vbmod.past	will
become	vblex.inf	become
of	pr	of
the	det.def.sp	the
city	n.sg	city
.	sent	.
</s>
</v>
<v at="4:6">
<s>
And	cnjcoo	and
the	det.def.sp	the
LORD	n.sg	lord
God	n.sg	god
prepared	vblex.past	prepare
a	det.ind.sg	a
gourd	n.sg	gourd
,	cm	,
and	cnjcoo	and
made	vblex.past	make
it	prn.obj.p3.nt.sg	it
to	pr	to
come	vblex.inf	come
up	adv	up
over	pr	over
Jonah	np.ant.m.sg	Jonah
,	cm	,
that	cnjsub	that
it	prn.subj.p3.nt.sg	it
might	vbmod.pres	might
be	vbser.inf	be
a	det.ind.sg	a
shadow	n.sg	shadow
over	pr	over
his	det.pos.sp	his
head	n.sg	head
,	cm	,
to	pr	to
deliver	vblex.inf	deliver
him	prn.obj.p3.m.sg	him
from	pr	from
his	det.pos.sp	his
grief	n.sg	grief
.	sent	.
</s>
<s>
So	cnjadv	so
Jonah	np.ant.m.sg	Jonah
was	vbser.past.p1.sg	be
exceeding	vblex.ger	exceed
glad	adj.sint	glad
of	pr	of
the	det.def.sp	the
gourd	n.sg	gourd
.	sent	.
</s>
</v>
<v at="4:7">
<s>
But	cnjcoo	but
God	n.sg	god
prepared	vblex.past	prepare
a	det.ind.sg	a
worm	n.sg	worm
when	cnjadv	when
the	det.def.sp	the
morning	n.sg	morning
rose	n.sg	rose
the next day	adv	the next day
,	cm	,
and	cnjcoo	and
it	prn.subj.p3.nt.sg	it
smote	vblex.past	smite
the	det.def.sp	the
gourd	n.sg	gourd
that	cnjsub	that
it	prn.subj.p3.nt.sg	it
withered	adj	withered
.	sent	.
</s>
</v>
<v at="4:8">
<s>
And	cnjcoo	and
it	prn.subj.p3.nt.sg	it
came	vblex.past	come
to	pr	to
pass	vblex.inf	pass
,	cm	,
when	cnjadv	when
the	det.def.sp	the
sun	n.sg	sun
did	vbdo.past	do
arise	vblex.inf	arise
,	cm	,
that	det.dem.sg	that
God	n.sg	god
prepared	vblex.past	prepare
a	det.ind.sg	a
vehement	adj	vehement
east	n.sg	east
wind	n.sg	wind
;	sent	;
</s>
<s>
and	cnjcoo	and
the	det.def.sp	the
sun	n.sg	sun
beat	n.sg	beat
upon	pr	upon
the	det.def.sp	the
head	n.sg	head
of	pr	of
Jonah	np.ant.m.sg	Jonah
,	cm	,
that	cnjsub	that
he	prn.subj.p3.m.sg	he
fainted	unknown	fainted
,	cm	,
and	cnjcoo	and
wished	vblex.past	wish
in	pr	in
himself	prn.ref.p3.m.sg	himself
to	pr	to
die	vblex.inf	die
,	cm	,
and	cnjcoo	and
said	vblex.past	say
,	cm	,
It	prn.subj.p3.nt.sg	prpers
is	vbser.pres.p3.sg	be
better	adj.sint.comp	good
for	pr	for
me	prn.obj.p1.mf.sg	me
to	pr	to
die	vblex.inf	die
than	cnjsub	than
to	pr	to
live	vblex.inf	live
.	sent	.
</s>
</v>
<v at="4:9">
<s>
And	cnjcoo	and
God	n.sg	god
said	vblex.past	say
to	pr	to
Jonah	np.ant.m.sg	Jonah
,	cm	,
Doest	vblex.pres	do
thou	prn.subj.p2.mf.sg	thou
well	adv	well
to	pr	to
be	vbser.inf	be
angry	adj.sint	angry
for	pr	for
the	det.def.sp	the
gourd	n.sg	gourd
?	sent	?
</s>
<s>
And	cnjcoo	and
he	prn.subj.p3.m.sg	he
said	vblex.past	say
,	cm	,
I	prn.subj.p1.mf.sg.min	prpers
do	vblex.inf	do
well	adv	well
to	pr	to
be	vbser.inf	be
angry	adj.sint	angry
,	cm	,
even	adv	even
unto	pr	unto
death	n.sg	death
.	sent	.
</s>
</v>
<v at="4:10">
<s>
Then	adv	then
said	vblex.past	say
the	det.def.sp	the
LORD	n.sg	lord
,	cm	,
Thou	prn.subj.p2.mf.sg	thou
hast	vbhaver.pres.p2.sg	have
had	vblex.past	have
pity	n.sg	pity
on	pr	on
the	det.def.sp	the
gourd	n.sg	gourd
,	cm	,
for	pr	for
the	det.def.sp	the
which	prn.itg.mf.sp	which
thou	prn.subj.p2.mf.sg	thou
hast	vbhaver.pres.p2.sg	have
not	adv	not
laboured	unknown	laboured
,	cm	,
neither	cnjcoo	neither
madest	unknown	madest
it	prn.subj.p3.nt.sg	it
grow	vblex.pres	grow
;	sent	;
</s>
<s>
which	prn.itg.mf.sp	which
came	vblex.past	come
up	adv	up
in	pr	in
a	det.ind.sg	a
night	n.sg	night
,	cm	,
and	cnjcoo	and
perished	vblex.past	perish
in	pr	in
a	det.ind.sg	a
night	n.sg	night
:	sent	:
</s>
</v>
<v at="4:11">
<s>
And	cnjcoo	and
should	vbmod.past	shall
not	adv	not
I	prn.subj.p1.mf.sg.min	prpers
spare	vblex.inf	spare
Nineveh	unknown	Nineveh
,	cm	,
that	det.dem.sg	that
great	adj.sint	great
city	n.sg	city
,	cm	,
wherein	unknown	wherein
are	vbser.pres	be
more	adv	more
than	cnjsub	than
sixscore	unknown	sixscore
thousand	num.pl	thousand
persons	n.pl	person
that	prn.rel.an.mf.sp	that
cannot	vbmod.pres	can
discern	vblex.inf	discern
between	pr	between
their	det.pos.sp	their
right	adj	right
hand	n.sg	hand
and	cnjcoo	and
their	det.pos.sp	their
left	adj	left
hand	n.sg	hand
;	sent	;
</s>
<s>
and	cnjcoo	and
also	adv	also
much	det.qnt.sg	much
cattle	n.sg	cattle
?	sent	?
</s>
<s>
.	sent	.
</s>
</v>
</doc>
