<doc book="Ruth">
<v at="1:1">
<s>
Now	adv	now
it	prn.subj.p3.nt.sg	it
came	vblex.past	come
to	pr	to
pass	vblex.inf	pass
in	pr	in
the	det.def.sp	the
days	n.pl	day
when	cnjadv	when
the	det.def.sp	the
judges	n.pl	judge
ruled	vblex.past	rule
,	cm	,
that	cnjsub	that
there	adv	there
was	vbser.past.p1.sg	be
a	det.ind.sg	a
famine	n.sg	famine
in	pr	in
the	det.def.sp	the
land	n.sg	land
.	sent	.
</s>
<s>
And	cnjcoo	and
a	det.ind.sg	a
certain	adj	certain
man	n.sg	man
of	pr	of
Bethlehemjudah	unknown	Bethlehemjudah
went	vblex.past	go
to	pr	to
sojourn	unknown	sojourn
in	pr	in
the	det.def.sp	the
country	n.sg	country
of	pr	of
Moab	unknown	Moab
,	cm	,
he	prn.subj.p3.m.sg	he
,	cm	,
and	cnjcoo	and
his	det.pos.sp	his
wife	n.sg	wife
,	cm	,
and	cnjcoo	and
his	det.pos.sp	his
two	num.pl	two
sons	n.pl	son
.	sent	.
</s>
</v>
<v at="1:2">
<s>
And	cnjcoo	and
the	det.def.sp	the
name	n.sg	name
of	pr	of
the	det.def.sp	the
man	n.sg	man
was	vbser.past.p1.sg	be
Elimelech	unknown	Elimelech
,	cm	,
and	cnjcoo	and
the	det.def.sp	the
name	n.sg	name
of	pr	of
his	det.pos.sp	his
wife	n.sg	wife
Naomi	np.ant.f.sg	Naomi
,	cm	,
and	cnjcoo	and
the	det.def.sp	the
name	n.sg	name
of	pr	of
his	det.pos.sp	his
two	num.pl	two
sons	n.pl	son
Mahlon	unknown	Mahlon
and	cnjcoo	and
Chilion	unknown	Chilion
,	cm	,
Ephrathites	unknown	Ephrathites
of	pr	of
Bethlehemjudah	unknown	Bethlehemjudah
.	sent	.
</s>
<s>
And	cnjcoo	and
they	prn.subj.p3.mf.pl	they
came	vblex.past	come
into	pr	into
the	det.def.sp	the
country	n.sg	country
of	pr	of
Moab	unknown	Moab
,	cm	,
and	cnjcoo	and
continued	vblex.past	continue
there	adv	there
.	sent	.
</s>
</v>
<v at="1:3">
<s>
And	cnjcoo	and
Elimelech	unknown	Elimelech
Naomi	np.ant.f.sg	Naomi
's	vbhaver.pres.p3.sg	have
husband	n.sg	husband
died	vblex.past	die
;	sent	;
</s>
<s>
and	cnjcoo	and
she	prn.subj.p3.f.sg	she
was left	vblex.past.p1.sg	be left
,	cm	,
and	cnjcoo	and
her	prn.obj.p3.f.sg	her
two	num.pl	two
sons	n.pl	son
.	sent	.
</s>
</v>
<v at="1:4">
<s>
And	cnjcoo	and
they	prn.subj.p3.mf.pl	they
took	vblex.past	take
them	prn.obj.p3.mf.pl	them
wives	n.pl	wife
of	pr	of
the	det.def.sp	the
women	n.pl	woman
of	pr	of
Moab	unknown	Moab
;	sent	;
</s>
<s>
the	det.def.sp	the
name	n.sg	name
of	pr	of
the one	prn.dem.mf.sg	the one
was	vbser.past.p1.sg	be
Orpah	unknown	Orpah
,	cm	,
and	cnjcoo	and
the	det.def.sp	the
name	n.sg	name
of	pr	of
the other	prn.dem.mf.sg	the other
Ruth	np.ant.f.sg	Ruth
:	sent	:
</s>
<s>
and	cnjcoo	and
they	prn.subj.p3.mf.pl	they
dwelled	vblex.past	dwell
there	adv	there
about	pr	about
ten	num.pl	ten
years	n.pl	year
.	sent	.
</s>
</v>
<v at="1:5">
<s>
And	cnjcoo	and
Mahlon	unknown	Mahlon
and	cnjcoo	and
Chilion	unknown	Chilion
died	vblex.past	die
also	adv	also
both	prn.ind.mf.pl	both
of	pr	of
them	prn.obj.p3.mf.pl	them
;	sent	;
</s>
<s>
and	cnjcoo	and
the	det.def.sp	the
woman	n.sg	woman
was left	vblex.past.p1.sg	be left
of	pr	of
her	prn.obj.p3.f.sg	her
two	num.pl	two
sons	n.pl	son
and	cnjcoo	and
her	det.pos.sp	her
husband	n.sg	husband
.	sent	.
</s>
</v>
<v at="1:6">
<s>
Then	adv	then
she	prn.subj.p3.f.sg	she
arose	vblex.past	arise
with	pr	with
her	det.pos.sp	her
daughters	n.pl	daughter
in	pr	in
law	n.sg	law
,	cm	,
that	cnjsub	that
she	prn.subj.p3.f.sg	she
might	vbmod.pres	might
return	vblex.inf	return
from	pr	from
the	det.def.sp	the
country	n.sg	country
of	pr	of
Moab	unknown	Moab
:	sent	:
</s>
<s>
for	pr	for
she	prn.subj.p3.f.sg	she
had	vbhaver.past	have
heard	vblex.pp	hear
in	pr	in
the	det.def.sp	the
country	n.sg	country
of	pr	of
Moab	unknown	Moab
how	preadv	how
that	cnjsub	that
the	det.def.sp	the
LORD	n.sg	lord
had	vbhaver.past	have
visited	vblex.pp	visit
his	adj.pos.pred	his
people	n.sg	people
in	adv	in
giving	vblex.ger	give
them	prn.obj.p3.mf.pl	them
bread	n.sg	bread
.	sent	.
</s>
</v>
<v at="1:7">
<s>
Wherefore	unknown	Wherefore
she	prn.subj.p3.f.sg	she
went	vblex.past	go
forth	adv	forth
out of	pr	out of
the	det.def.sp	the
place	n.sg	place
where	adv	where
she	prn.subj.p3.f.sg	she
was	vbser.past.p1.sg	be
,	cm	,
and	cnjcoo	and
her	prn.obj.p3.f.sg	her
two	num.pl	two
daughters	n.pl	daughter
in	pr	in
law	n.sg	law
with	pr	with
her	prn.obj.p3.f.sg	her
;	sent	;
</s>
<s>
and	cnjcoo	and
they	prn.subj.p3.mf.pl	they
went on	vblex.past	go on
the	det.def.sp	the
way	n.sg	way
to	pr	to
return	vblex.inf	return
unto	pr	unto
the	det.def.sp	the
land	n.sg	land
of	pr	of
Judah	np.ant.m.sg	Judah
.	sent	.
</s>
</v>
<v at="1:8">
<s>
And	cnjcoo	and
Naomi	np.ant.f.sg	Naomi
said	vblex.past	say
unto	pr	unto
her	prn.obj.p3.f.sg	her
two	num.pl	two
daughters	n.pl	daughter
in	pr	in
law	n.sg	law
,	cm	,
Go	vblex.imp	go
,	cm	,
return	vblex.imp	return
each	prn.ind.mf.sg	each
to	pr	to
her	det.pos.sp	her
mother	n.sg	mother
's	gen	's
house	n.sg	house
:	sent	:
</s>
<s>
the	det.def.sp	the
LORD	n.sg	lord
deal	vblex.inf	deal
kindly	adv	kindly
with	pr	with
you	prn.obj.p2.mf.sp	you
,	cm	,
as	cnjadv	as
ye	prn.subj.p2.mf.pl	ye
have	vbhaver.inf	have
dealt with	vblex.pp	deal with
the	det.def.sp	the
dead	adj	dead
,	cm	,
and	cnjcoo	and
with	pr	with
me	prn.obj.p1.mf.sg	me
.	sent	.
</s>
</v>
<v at="1:9">
<s>
The	det.def.sp	the
LORD	n.sg	lord
grant	vblex.pres	grant
you	prn.obj.p2.mf.sp	you
that	cnjsub	that
ye	prn.subj.p2.mf.pl	ye
may	vbmod.pres	may
find	vblex.inf	find
rest	n.sg	rest
,	cm	,
each	prn.ind.mf.sg	each
of	pr	of
you	prn.obj.p2.mf.sp	you
in	pr	in
the	det.def.sp	the
house	n.sg	house
of	pr	of
her	det.pos.sp	her
husband	n.sg	husband
.	sent	.
</s>
<s>
Then	adv	then
she	prn.subj.p3.f.sg	she
kissed	vblex.past	kiss
them	prn.obj.p3.mf.pl	them
;	sent	;
</s>
<s>
and	cnjcoo	and
they	prn.subj.p3.mf.pl	they
lifted	vblex.past	lift
up	pr	up
their	det.pos.sp	their
voice	n.sg	voice
,	cm	,
and	cnjcoo	and
wept	vblex.past	weep
.	sent	.
</s>
</v>
<v at="1:10">
<s>
And	cnjcoo	and
they	prn.subj.p3.mf.pl	they
said	vblex.past	say
unto	pr	unto
her	prn.obj.p3.f.sg	her
,	cm	,
Surely	adv	surely
we	prn.subj.p1.mf.pl	we
will	vbmod.pres	will
return	vblex.inf	return
with	pr	with
thee	prn.obj.p2.mf.sg	thou
unto	pr	unto
thy	det.pos.sp	thy
people	n.pl	person
.	sent	.
</s>
</v>
<v at="1:11">
<s>
And	cnjcoo	and
Naomi	np.ant.f.sg	Naomi
said	vblex.past	say
,	cm	,
Turn	n.sg	turn
again	adv	again
,	cm	,
my	det.pos.sp	my
daughters	n.pl	daughter
:	sent	:
</s>
<s>
why	adv.itg	why
will	vbmod.pres	will
ye	prn.subj.p2.mf.pl	ye
go	vblex.pres	go
with	pr	with
me	prn.obj.p1.mf.sg	me
?	sent	?
</s>
<s>
are	vbser.pres	be
there	adv	there
yet	cnjadv	yet
any more	adv	any more
sons	n.pl	son
in	pr	in
my	det.pos.sp	my
womb	n.sg	womb
,	cm	,
that	cnjsub	that
they	prn.subj.p3.mf.pl	they
may	vbmod.pres	may
be	vbser.inf	be
your	det.pos.sp	your
husbands	n.pl	husband
?	sent	?
</s>
</v>
<v at="1:12">
<s>
Turn	n.sg	turn
again	adv	again
,	cm	,
my	det.pos.sp	my
daughters	n.pl	daughter
,	cm	,
go	vblex.imp	go
your	det.pos.sp	your
way	n.sg	way
;	sent	;
</s>
<s>
for	pr	for
I	prn.subj.p1.mf.sg.min	prpers
am	vbser.pres.p1.sg	be
too	adv	too
old	adj.sint	old
to	pr	to
have	vblex.inf	have
an	det.ind.sg	a
husband	n.sg	husband
.	sent	.
</s>
<s>
If	cnjsub	if
I	prn.subj.p1.mf.sg.min	prpers
should	vbmod.past	shall
say	vblex.inf	say
,	cm	,
I	prn.subj.p1.mf.sg.min	prpers
have	vblex.pres	have
hope	n.sg	hope
,	cm	,
if	cnjsub	if
I	prn.subj.p1.mf.sg.min	prpers
should	vbmod.past	shall
have	vblex.inf	have
an	det.ind.sg	a
husband	n.sg	husband
also	adv	also
to	pr	to
night	n.sg	night
,	cm	,
and	cnjcoo	and
should	vbmod.past	shall
also	adv	also
bear	vblex.inf	bear
sons	n.pl	son
;	sent	;
</s>
</v>
<v at="1:13">
<s>
Would	vbmod.past	will
ye	prn.subj.p2.mf.pl	ye
tarry	unknown	tarry
for	pr	for
them	prn.obj.p3.mf.pl	them
till	vblex.inf	till
they	prn.subj.p3.mf.pl	they
were	vbser.past	be
grown	vblex.pp	grow
?	sent	?
</s>
<s>
would	vbmod.past	will
ye	prn.subj.p2.mf.pl	ye
stay	n.sg	stay
for	pr	for
them	prn.obj.p3.mf.pl	them
from	pr	from
having	vblex.ger	have
husbands	n.pl	husband
?	sent	?
</s>
<s>
nay	unknown	nay
,	cm	,
my	det.pos.sp	my
daughters	n.pl	daughter
;	sent	;
</s>
<s>
for	pr	for
it	prn.obj.p3.nt.sg	it
grieveth	unknown	grieveth
me	prn.obj.p1.mf.sg	me
much	adv	much
for	pr	for
your	det.pos.sp	your
sakes	n.pl	sake
that	cnjsub	that
the	det.def.sp	the
hand	n.sg	hand
of	pr	of
the	det.def.sp	the
LORD	n.sg	lord
is	vbser.pres.p3.sg	be
gone out	vblex.pp	go out
against	pr	against
me	prn.obj.p1.mf.sg	me
.	sent	.
</s>
</v>
<v at="1:14">
<s>
And	cnjcoo	and
they	prn.subj.p3.mf.pl	they
lifted	vblex.past	lift
up	pr	up
their	det.pos.sp	their
voice	n.sg	voice
,	cm	,
and	cnjcoo	and
wept	vblex.past	weep
again	adv	again
:	sent	:
</s>
<s>
and	cnjcoo	and
Orpah	unknown	Orpah
kissed	vblex.past	kiss
her	det.pos.sp	her
mother	n.sg	mother
in	pr	in
law	n.sg	law
;	sent	;
</s>
<s>
but	cnjcoo	but
Ruth	np.ant.f.sg	Ruth
clave	n.sg	clave
unto	pr	unto
her	prn.obj.p3.f.sg	her
.	sent	.
</s>
</v>
<v at="1:15">
<s>
And	cnjcoo	and
she	prn.subj.p3.f.sg	she
said	vblex.past	say
,	cm	,
Behold	vblex.imp	behold
,	cm	,
thy	det.pos.sp	thy
sister	n.sg	sister
in	pr	in
law	n.sg	law
is	vbser.pres.p3.sg	be
gone back	vblex.pp	go back
unto	pr	unto
her	det.pos.sp	her
people	n.pl	person
,	cm	,
and	cnjcoo	and
unto	pr	unto
her	det.pos.sp	her
gods	n.pl	god
:	sent	:
</s>
<s>
return	n.sg	return
thou	prn.subj.p2.mf.sg	thou
after	pr	after
thy	det.pos.sp	thy
sister	n.sg	sister
in	pr	in
law	n.sg	law
.	sent	.
</s>
</v>
<v at="1:16">
<s>
And	cnjcoo	and
Ruth	np.ant.f.sg	Ruth
said	vblex.past	say
,	cm	,
Intreat	unknown	Intreat
me	prn.obj.p1.mf.sg	me
not	adv	not
to	pr	to
leave	vblex.inf	leave
thee	prn.obj.p2.mf.sg	thou
,	cm	,
or	cnjcoo	or
to	pr	to
return	vblex.inf	return
from	pr	from
following	vblex.subs	follow
after	pr	after
thee	prn.obj.p2.mf.sg	thou
:	sent	:
</s>
<s>
for	pr	for
whither	adv	whither
thou	prn.subj.p2.mf.sg	thou
goest	unknown	goest
,	cm	,
I	prn.subj.p1.mf.sg.min	prpers
will	vbmod.pres	will
go	vblex.inf	go
;	sent	;
</s>
<s>
and	cnjcoo	and
where	adv	where
thou	prn.subj.p2.mf.sg	thou
lodgest	unknown	lodgest
,	cm	,
I	prn.subj.p1.mf.sg.min	prpers
will	vbmod.pres	will
lodge	vblex.inf	lodge
:	sent	:
</s>
<s>
thy	det.pos.sp	thy
people	n.pl	person
shall	vbmod.pres	shall
be	vbser.inf	be
my	det.pos.sp	my
people	n.pl	person
,	cm	,
and	cnjcoo	and
thy	det.pos.sp	thy
God	n.sg	god
my	det.pos.sp	my
God	n.sg	god
:	sent	:
</s>
</v>
<v at="1:17">
<s>
Where	adv.itg	where
thou	prn.subj.p2.mf.sg	thou
diest	unknown	diest
,	cm	,
will	vbmod.pres	will
I	prn.subj.p1.mf.sg.min	prpers
die	vblex.inf	die
,	cm	,
and	cnjcoo	and
there	adv	there
will	vbmod.pres	will
I	prn.subj.p1.mf.sg.min	prpers
be	vbser.inf	be
buried	vblex.pp	bury
:	sent	:
</s>
<s>
the	det.def.sp	the
LORD	n.sg	lord
do	vblex.pres	do
so	cnjadv	so
to	pr	to
me	prn.obj.p1.mf.sg	me
,	cm	,
and	cnjcoo	and
more	adv	more
also	adv	also
,	cm	,
if	cnjsub	if
ought	unknown	ought
but	cnjcoo	but
death	n.sg	death
part	vblex.pres	part
thee	prn.obj.p2.mf.sg	thou
and	cnjcoo	and
me	prn.obj.p1.mf.sg	me
.	sent	.
</s>
</v>
<v at="1:18">
<s>
When	adv.itg	when
she	prn.subj.p3.f.sg	she
saw	vblex.past	see
that	cnjsub	that
she	prn.subj.p3.f.sg	she
was	vbser.past.p3.sg	be
stedfastly	unknown	stedfastly
minded	vblex.pp	mind
to	pr	to
go	vblex.inf	go
with	pr	with
her	prn.obj.p3.f.sg	her
,	cm	,
then	cnjadv	then
she	prn.subj.p3.f.sg	she
left	n.sg	left
speaking	vblex.pprs	speak
unto	pr	unto
her	prn.obj.p3.f.sg	her
.	sent	.
</s>
</v>
<v at="1:19">
<s>
So	cnjadv	so
they	prn.subj.p3.mf.pl	they
two	num.pl	two
went	vblex.past	go
until	cnjadv	until
they	prn.subj.p3.mf.pl	they
came	vblex.past	come
to	pr	to
Bethlehem	np.top.sg	Bethlehem
.	sent	.
</s>
<s>
And	cnjcoo	and
it	prn.subj.p3.nt.sg	it
came	vblex.past	come
to	pr	to
pass	vblex.inf	pass
,	cm	,
when	cnjadv	when
they	prn.subj.p3.mf.pl	they
were	vbser.past	be
come	vblex.pp	come
to	pr	to
Bethlehem	np.top.sg	Bethlehem
,	cm	,
that	cnjsub	that
all	predet.sp	all
the	det.def.sp	the
city	n.sg	city
was	vbser.past.p1.sg	be
moved	vblex.pp	move
about	pr	about
them	prn.obj.p3.mf.pl	them
,	cm	,
and	cnjcoo	and
they	prn.subj.p3.mf.pl	they
said	vblex.past	say
,	cm	,
Is	vbser.pres.p3.sg	be
this	prn.dem.mf.sg	this
Naomi	np.ant.f.sg	Naomi
?	sent	?
</s>
</v>
<v at="1:20">
<s>
And	cnjcoo	and
she	prn.subj.p3.f.sg	she
said	vblex.past	say
unto	pr	unto
them	prn.obj.p3.mf.pl	them
,	cm	,
Call	vblex.imp	call
me	prn.obj.p1.mf.sg	me
not	adv	not
Naomi	np.ant.f.sg	Naomi
,	cm	,
call	vblex.imp	call
me	prn.obj.p1.mf.sg	me
Mara	np.ant.f.sg	Mara
:	sent	:
</s>
<s>
for	pr	for
the	det.def.sp	the
Almighty	unknown	Almighty
hath	vbhaver.pres.p3.sg	have
dealt	vblex.past	deal
very	preadv	very
bitterly	adv	bitterly
with	pr	with
me	prn.obj.p1.mf.sg	me
.	sent	.
</s>
</v>
<v at="1:21">
<s>
I	prn.subj.p1.mf.sg	prpers
went out	vblex.past	go out
full	adj.sint	full
,	cm	,
and	cnjcoo	and
the	det.def.sp	the
LORD	n.sg	lord
hath	vbhaver.pres.p3.sg	have
brought	vblex.past	bring
me	prn.obj.p1.mf.sg	me
home	n.sg	home
again	adv	again
empty	adj.sint	empty
:	sent	:
</s>
<s>
why	adv.itg	why
then	cnjadv	then
call	vblex.inf	call
ye	prn.subj.p2.mf.pl	ye
me	prn.obj.p1.mf.sg	me
Naomi	np.ant.f.sg	Naomi
,	cm	,
seeing	vblex.pprs	see
the	det.def.sp	the
LORD	n.sg	lord
hath	vbhaver.pres.p3.sg	have
testified	vblex.past	testify
against	pr	against
me	prn.obj.p1.mf.sg	me
,	cm	,
and	cnjcoo	and
the	det.def.sp	the
Almighty	unknown	Almighty
hath	vbhaver.pres.p3.sg	have
afflicted	vblex.past	afflict
me	prn.obj.p1.mf.sg	me
?	sent	?
</s>
</v>
<v at="1:22">
<s>
So	cnjadv	so
Naomi	np.ant.f.sg	Naomi
returned	vblex.past	return
,	cm	,
and	cnjcoo	and
Ruth	np.ant.f.sg	Ruth
the	det.def.sp	the
Moabitess	unknown	Moabitess
,	cm	,
her	det.pos.sp	her
daughter	n.sg	daughter
in	pr	in
law	n.sg	law
,	cm	,
with	pr	with
her	prn.obj.p3.f.sg	her
,	cm	,
which	prn.itg.mf.sp	which
returned	vblex.past	return
out of	pr	out of
the	det.def.sp	the
country	n.sg	country
of	pr	of
Moab	unknown	Moab
:	sent	:
</s>
<s>
and	cnjcoo	and
they	prn.subj.p3.mf.pl	they
came	vblex.past	come
to	pr	to
Bethlehem	np.top.sg	Bethlehem
in the beginning	adv	in the beginning
of	pr	of
barley	n.sg	barley
harvest	n.sg	harvest
.	sent	.
</s>
</v>
<v at="2:1">
<s>
And	cnjcoo	and
Naomi	np.ant.f.sg	Naomi
had	vblex.past	have
a	det.ind.sg	a
kinsman	unknown	kinsman
of	pr	of
her	det.pos.sp	her
husband	n.sg	husband
's	gen	's
,	cm	,
a	det.ind.sg	a
mighty	adj.sint	mighty
man	n.sg	man
of	pr	of
wealth	n.sg	wealth
,	cm	,
of	pr	of
the	det.def.sp	the
family	n.sg	family
of	pr	of
Elimelech	unknown	Elimelech
;	sent	;
</s>
<s>
and	cnjcoo	and
his	det.pos.sp	his
name	n.sg	name
was	vbser.past.p1.sg	be
Boaz	unknown	Boaz
.	sent	.
</s>
</v>
<v at="2:2">
<s>
And	cnjcoo	and
Ruth	np.ant.f.sg	Ruth
the	det.def.sp	the
Moabitess	unknown	Moabitess
said	vblex.past	say
unto	pr	unto
Naomi	np.ant.f.sg	Naomi
,	cm	,
Let	vblex.imp	let
me	prn.obj.p1.mf.sg	me
now	adv	now
go	vblex.pres	go
to	pr	to
the	det.def.sp	the
field	n.sg	field
,	cm	,
and	cnjcoo	and
glean	unknown	glean
ears	n.pl	ear
of	pr	of
corn	n.sg	corn
after	pr	after
him	prn.obj.p3.m.sg	him
in	pr	in
whose	det.pos.mf.sp	whose
sight	n.sg	sight
I	prn.subj.p1.mf.sg.min	prpers
shall	vbmod.pres	shall
find	vblex.inf	find
grace	n.sg	grace
.	sent	.
</s>
<s>
And	cnjcoo	and
she	prn.subj.p3.f.sg	she
said	vblex.past	say
unto	pr	unto
her	prn.obj.p3.f.sg	her
,	cm	,
Go	vblex.imp	go
,	cm	,
my	det.pos.sp	my
daughter	n.sg	daughter
.	sent	.
</s>
</v>
<v at="2:3">
<s>
And	cnjcoo	and
she	prn.subj.p3.f.sg	she
went	vblex.past	go
,	cm	,
and	cnjcoo	and
came	vblex.past	come
,	cm	,
and	cnjcoo	and
gleaned	unknown	gleaned
in	pr	in
the	det.def.sp	the
field	n.sg	field
after	cnjadv	after
the	det.def.sp	the
reapers	unknown	reapers
:	sent	:
</s>
<s>
and	cnjcoo	and
her	prn.obj.p3.f.sg	her
hap	unknown	hap
was	vbser.past.p1.sg	be
to	pr	to
light	vblex.inf	light
on	pr	on
a	det.ind.sg	a
part	n.sg	part
of	pr	of
the	det.def.sp	the
field	n.sg	field
belonging	n.sg	belonging
unto	pr	unto
Boaz	unknown	Boaz
,	cm	,
who	prn.rel.an.mf.sp	who
was	vbser.past.p3.sg	be
of	pr	of
the	det.def.sp	the
kindred	n.sg	kindred
of	pr	of
Elimelech	unknown	Elimelech
.	sent	.
</s>
</v>
<v at="2:4">
<s>
And	cnjcoo	and
,	cm	,
behold	vblex.imp	behold
,	cm	,
Boaz	unknown	Boaz
came from	vblex.past	come from
Bethlehem	np.top.sg	Bethlehem
,	cm	,
and	cnjcoo	and
said	vblex.past	say
unto	pr	unto
the	det.def.sp	the
reapers	unknown	reapers
,	cm	,
The	det.def.sp	the
LORD	n.sg	lord
be	vbser.inf	be
with	pr	with
you	prn.obj.p2.mf.sp	you
.	sent	.
</s>
<s>
And	cnjcoo	and
they	prn.subj.p3.mf.pl	they
answered	vblex.past	answer
him	prn.obj.p3.m.sg	him
,	cm	,
The	det.def.sp	the
LORD	n.sg	lord
bless	vblex.inf	bless
thee	prn.obj.p2.mf.sg	thou
.	sent	.
</s>
</v>
<v at="2:5">
<s>
Then	adv	then
said	vblex.past	say
Boaz	unknown	Boaz
unto	pr	unto
his	det.pos.sp	his
servant	n.sg	servant
that	prn.rel.an.mf.sp	that
was	vbser.past.p1.sg	be
set	vblex.pp	set
over	adv	over
the	det.def.sp	the
reapers	unknown	reapers
,	cm	,
Whose	det.pos.mf.sp	whose
damsel	n.sg	damsel
is	vbser.pres.p3.sg	be
this	prn.dem.mf.sg	this
?	sent	?
</s>
</v>
<v at="2:6">
<s>
And	cnjcoo	and
the	det.def.sp	the
servant	n.sg	servant
that	prn.rel.an.mf.sp	that
was	vbser.past.p3.sg	be
set	vblex.pp	set
over	adv	over
the	det.def.sp	the
reapers	unknown	reapers
answered	vblex.past	answer
and	cnjcoo	and
said	vblex.past	say
,	cm	,
It	prn.subj.p3.nt.sg	prpers
is	vbser.pres.p3.sg	be
the	det.def.sp	the
Moabitish	unknown	Moabitish
damsel	n.sg	damsel
that	cnjsub	that
came back	vblex.past	come back
with	pr	with
Naomi	np.ant.f.sg	Naomi
out of	pr	out of
the	det.def.sp	the
country	n.sg	country
of	pr	of
Moab	unknown	Moab
:	sent	:
</s>
</v>
<v at="2:7">
<s>
And	cnjcoo	and
she	prn.subj.p3.f.sg	she
said	vblex.past	say
,	cm	,
I	prn.subj.p1.mf.sg.min	prpers
pray	vblex.pres	pray
you	prn.obj.p2.mf.sp	you
,	cm	,
let	vblex.imp	let
me	prn.obj.p1.mf.sg	me
glean	unknown	glean
and	cnjcoo	and
gather	vblex.pres	gather
after	cnjadv	after
the	det.def.sp	the
reapers	unknown	reapers
among	pr	among
the	det.def.sp	the
sheaves	unknown	sheaves
:	sent	:
</s>
<s>
so	cnjadv	so
she	prn.subj.p3.f.sg	she
came	vblex.past	come
,	cm	,
and	cnjcoo	and
hath	vbhaver.pres.p3.sg	have
continued	vblex.past	continue
even	adv	even
from	pr	from
the	det.def.sp	the
morning	n.sg	morning
until	pr	until
now	adv	now
,	cm	,
that	cnjsub	that
she	prn.subj.p3.f.sg	she
tarried	unknown	tarried
a	det.ind.sg	a
little	adv	little
in	pr	in
the	det.def.sp	the
house	n.sg	house
.	sent	.
</s>
</v>
<v at="2:8">
<s>
Then	adv	then
said	vblex.past	say
Boaz	unknown	Boaz
unto	pr	unto
Ruth	np.ant.f.sg	Ruth
,	cm	,
Hearest	unknown	Hearest
thou	prn.subj.p2.mf.sg	thou
not	adv	not
,	cm	,
my	det.pos.sp	my
daughter	n.sg	daughter
?	sent	?
</s>
<s>
Go	vblex.imp	go
not	adv	not
to	pr	to
glean	unknown	glean
in	pr	in
another	det.ind.sg	another
field	n.sg	field
,	cm	,
neither	cnjcoo	neither
go	vblex.pres	go
from	pr	from
hence	adv	hence
,	cm	,
but	cnjcoo	but
abide	vblex.inf	abide
here	adv	here
fast	adj.sint	fast
by	pr	by
my	det.pos.sp	my
maidens	n.pl	maiden
:	sent	:
</s>
</v>
<v at="2:9">
<s>
Let	vblex.imp	let
thine	det.pos.sp	thine
eyes	n.pl	eye
be	vbser.inf	be
on	pr	on
the	det.def.sp	the
field	n.sg	field
that	cnjsub	that
they	prn.subj.p3.mf.pl	they
do	vblex.inf	do
reap	unknown	reap
,	cm	,
and	cnjcoo	and
go	vblex.pres	go
thou	prn.subj.p2.mf.sg	thou
after	pr	after
them	prn.obj.p3.mf.pl	them
:	sent	:
</s>
<s>
have	vblex.imp	have
I	prn.subj.p1.mf.sg.min	prpers
not	adv	not
charged	vblex.past	charge
the	det.def.sp	the
young	adj.sint	young
men	n.pl	man
that	prn.rel.an.mf.sp	that
they	prn.subj.p3.mf.pl	they
shall	vbmod.pres	shall
not	adv	not
touch	vblex.inf	touch
thee	prn.obj.p2.mf.sg	thou
?	sent	?
</s>
<s>
and	cnjcoo	and
when	cnjadv	when
thou	prn.subj.p2.mf.sg	thou
art	vbser.pres.p2.sg	be
athirst	unknown	athirst
,	cm	,
go	vblex.imp	go
unto	pr	unto
the	det.def.sp	the
vessels	n.pl	vessel
,	cm	,
and	cnjcoo	and
drink	n.sg	drink
of	pr	of
that	cnjsub	that
which	prn.itg.mf.sp	which
the	det.def.sp	the
young	adj.sint	young
men	n.pl	man
have	vbhaver.pres	have
drawn	vblex.pp	draw
.	sent	.
</s>
</v>
<v at="2:10">
<s>
Then	adv	then
she	prn.subj.p3.f.sg	she
fell	vblex.past	fall
on	pr	on
her	det.pos.sp	her
face	n.sg	face
,	cm	,
and	cnjcoo	and
bowed	vblex.past	bow
herself	prn.ref.p3.f.sg	herself
to the ground	adv	to the ground
,	cm	,
and	cnjcoo	and
said	vblex.past	say
unto	pr	unto
him	prn.obj.p3.m.sg	him
,	cm	,
Why	adv.itg	why
have	vbhaver.inf	have
I	prn.subj.p1.mf.sg.min	prpers
found	vblex.pp	find
grace	n.sg	grace
in	adv	in
thine	det.pos.sp	thine
eyes	n.pl	eye
,	cm	,
that	cnjsub	that
thou	prn.subj.p2.mf.sg	thou
shouldest	unknown	shouldest
take	vblex.pres	take
knowledge	n.sg	knowledge
of	pr	of
me	prn.obj.p1.mf.sg	me
,	cm	,
seeing	vblex.pprs	see
I	prn.subj.p1.mf.sg.min	prpers
am	vbser.pres.p1.sg	be
a	det.ind.sg	a
stranger	adj.sint.comp	strange
?	sent	?
</s>
</v>
<v at="2:11">
<s>
And	cnjcoo	and
Boaz	unknown	Boaz
answered	vblex.past	answer
and	cnjcoo	and
said	vblex.past	say
unto	pr	unto
her	prn.obj.p3.f.sg	her
,	cm	,
It	prn.subj.p3.nt.sg	prpers
hath	vbhaver.pres.p3.sg	have
fully	adv	fully
been	vbser.pp	be
shewed	unknown	shewed
me	prn.obj.p1.mf.sg	me
,	cm	,
all	prn.qnt.mf.sp	all
that	cnjsub	that
thou	prn.subj.p2.mf.sg	thou
hast	vbhaver.pres.p2.sg	have
done	vblex.pp	do
unto	pr	unto
thy	det.pos.sp	thy
mother	n.sg	mother
in	pr	in
law	n.sg	law
since	pr	since
the	det.def.sp	the
death	n.sg	death
of	pr	of
thine	det.pos.sp	thine
husband	n.sg	husband
:	sent	:
</s>
<s>
and	cnjcoo	and
how	preadv	how
thou	prn.subj.p2.mf.sg	thou
hast	vbhaver.pres.p2.sg	have
left	vblex.pp	leave
thy	det.pos.sp	thy
father	n.sg	father
and	cnjcoo	and
thy	det.pos.sp	thy
mother	n.sg	mother
,	cm	,
and	cnjcoo	and
the	det.def.sp	the
land	n.sg	land
of	pr	of
thy	det.pos.sp	thy
nativity	n.sg	nativity
,	cm	,
and	cnjcoo	and
art	vbser.pres.p2.sg	be
come	vblex.pp	come
unto	pr	unto
a	det.ind.sg	a
people	n.pl	person
which	prn.itg.mf.sp	which
thou	prn.subj.p2.mf.sg	thou
knewest	unknown	knewest
not	adv	not
heretofore	adv	heretofore
.	sent	.
</s>
</v>
<v at="2:12">
<s>
The	det.def.sp	the
LORD	n.sg	lord
recompense	unknown	recompense
thy	det.pos.sp	thy
work	n.sg	work
,	cm	,
and	cnjcoo	and
a	det.ind.sg	a
full	adj.sint	full
reward	n.sg	reward
be	vbser.inf	be
given	vblex.pp	give
thee	prn.obj.p2.mf.sg	thou
of	pr	of
the	det.def.sp	the
LORD	n.sg	lord
God	n.sg	god
of	pr	of
Israel	np.top.sg	Israel
,	cm	,
under	pr	under
whose	det.pos.mf.sp	whose
wings	n.pl	wing
thou	prn.subj.p2.mf.sg	thou
art	vbser.pres.p2.sg	be
come	vblex.pp	come
to	pr	to
trust	vblex.inf	trust
.	sent	.
</s>
</v>
<v at="2:13">
<s>
Then	adv	then
she	prn.subj.p3.f.sg	she
said	vblex.past	say
,	cm	,
Let	vblex.imp	let
me	prn.obj.p1.mf.sg	me
find	vblex.pres	find
favour	n.sg	favour
in	pr	in
thy	det.pos.sp	thy
sight	n.sg	sight
,	cm	,
my	det.pos.sp	my
lord	n.sg	lord
;	sent	;
</s>
<s>
for	pr	for
that	prn.dem.mf.sg	that
thou	prn.subj.p2.mf.sg	thou
hast	vbhaver.pres.p2.sg	have
comforted	vblex.pp	comfort
me	prn.obj.p1.mf.sg	me
,	cm	,
and	cnjcoo	and
for	pr	for
that	cnjsub	that
thou	prn.subj.p2.mf.sg	thou
hast	vbhaver.pres.p2.sg	have
spoken	vblex.pp	speak
friendly	adj.sint	friendly
unto	pr	unto
thine	det.pos.sp	thine
handmaid	unknown	handmaid
,	cm	,
though	cnjadv	though
I	prn.subj.p1.mf.sg.min	prpers
be	vbser.inf	be
not	adv	not
like	pr	like
unto	pr	unto
one	prn.dem.mf.sg	one
of	pr	of
thine	det.pos.sp	thine
handmaidens	unknown	handmaidens
.	sent	.
</s>
</v>
<v at="2:14">
<s>
And	cnjcoo	and
Boaz	unknown	Boaz
said	vblex.past	say
unto	pr	unto
her	prn.obj.p3.f.sg	her
,	cm	,
At	pr	at
mealtime	unknown	mealtime
come	vblex.pp	come
thou	prn.subj.p2.mf.sg	thou
hither	unknown	hither
,	cm	,
and	cnjcoo	and
eat	vblex.pres	eat
of	pr	of
the	det.def.sp	the
bread	n.sg	bread
,	cm	,
and	cnjcoo	and
dip	n.sg	dip
thy	det.pos.sp	thy
morsel	unknown	morsel
in	pr	in
the	det.def.sp	the
vinegar	n.sg	vinegar
.	sent	.
</s>
<s>
And	cnjcoo	and
she	prn.subj.p3.f.sg	she
sat	vblex.past	sit
beside	pr	beside
the	det.def.sp	the
reapers	unknown	reapers
:	sent	:
</s>
<s>
and	cnjcoo	and
he	prn.subj.p3.m.sg	he
reached	vblex.past	reach
her	prn.obj.p3.f.sg	her
parched	unknown	parched
corn	n.sg	corn
,	cm	,
and	cnjcoo	and
she	prn.subj.p3.f.sg	she
did	vbdo.past	do
eat	vblex.inf	eat
,	cm	,
and	cnjcoo	and
was	vbser.past.p3.sg	be
sufficed	vblex.pp	suffice
,	cm	,
and	cnjcoo	and
left	vblex.past	leave
.	sent	.
</s>
</v>
<v at="2:15">
<s>
And	cnjcoo	and
when	cnjadv	when
she	prn.subj.p3.f.sg	she
was	vbser.past.p3.sg	be
risen	vblex.pp	rise
up to	pr	up to
glean	unknown	glean
,	cm	,
Boaz	unknown	Boaz
commanded	vblex.past	command
his	det.pos.sp	his
young	adj.sint	young
men	n.pl	man
,	cm	,
saying	vblex.ger	say
,	cm	,
Let	vblex.imp	let
her	prn.obj.p3.f.sg	her
glean	unknown	glean
even	adv	even
among	pr	among
the	det.def.sp	the
sheaves	unknown	sheaves
,	cm	,
and	cnjcoo	and
reproach	vblex.inf	reproach
her	prn.obj.p3.f.sg	her
not	adv	not
:	sent	:
</s>
</v>
<v at="2:16">
<s>
And	cnjcoo	and
let	vblex.past	let
fall	n.sg	fall
also	adv	also
some	prn.ind.mf.pl	some
of	pr	of
the	det.def.sp	the
handfuls	unknown	handfuls
of	pr	of
purpose	n.sg	purpose
for	pr	for
her	prn.obj.p3.f.sg	her
,	cm	,
and	cnjcoo	and
leave	vblex.pres	leave
them	prn.obj.p3.mf.pl	them
,	cm	,
that	cnjsub	that
she	prn.subj.p3.f.sg	she
may	vbmod.inf	may
glean	unknown	glean
them	prn.obj.p3.mf.pl	them
,	cm	,
and	cnjcoo	and
rebuke	n.sg	rebuke
her	prn.obj.p3.f.sg	her
not	adv	not
.	sent	.
</s>
</v>
<v at="2:17">
<s>
So	cnjadv	so
she	prn.subj.p3.f.sg	she
gleaned	unknown	gleaned
in	pr	in
the	det.def.sp	the
field	n.sg	field
until	pr	until
even	adv	even
,	cm	,
and	cnjcoo	and
beat	vblex.past	beat
out	pr	out
that	cnjsub	that
she	prn.subj.p3.f.sg	she
had	vblex.past	have
gleaned	unknown	gleaned
:	sent	:
</s>
<s>
and	cnjcoo	and
it	prn.subj.p3.nt.sg	it
was	vbser.past.p1.sg	be
about	adv	about
an	det.ind.sg	a
ephah	unknown	ephah
of	pr	of
barley	n.sg	barley
.	sent	.
</s>
</v>
<v at="2:18">
<s>
And	cnjcoo	and
she	prn.subj.p3.f.sg	she
took	vblex.past	take
it	prn.obj.p3.nt.sg	it
up	adv	up
,	cm	,
and	cnjcoo	and
went	vblex.past	go
into	pr	into
the	det.def.sp	the
city	n.sg	city
:	sent	:
</s>
<s>
and	cnjcoo	and
her	det.pos.sp	her
mother	n.sg	mother
in	pr	in
law	n.sg	law
saw	vblex.past	see
what	prn.rel.nn.mf.sg	what
she	prn.subj.p3.f.sg	she
had	vblex.past	have
gleaned	unknown	gleaned
:	sent	:
</s>
<s>
and	cnjcoo	and
she	prn.subj.p3.f.sg	she
brought	vblex.past	bring
forth	adv	forth
,	cm	,
and	cnjcoo	and
gave	vblex.past	give
to	pr	to
her	prn.obj.p3.f.sg	her
that	cnjsub	that
she	prn.subj.p3.f.sg	she
had	vbhaver.past	have
reserved	vblex.pp	reserve
after	pr	after
she	prn.subj.p3.f.sg	she
was	vbser.past.p1.sg	be
sufficed	vblex.pp	suffice
.	sent	.
</s>
</v>
<v at="2:19">
<s>
And	cnjcoo	and
her	det.pos.sp	her
mother	n.sg	mother
in	pr	in
law	n.sg	law
said	vblex.past	say
unto	pr	unto
her	prn.obj.p3.f.sg	her
,	cm	,
Where	adv	where
hast	vbhaver.pres.p2.sg	have
thou	prn.subj.p2.mf.sg	thou
gleaned	unknown	gleaned
to	pr	to
day	n.sg	day
?	sent	?
</s>
<s>
and	cnjcoo	and
where	adv	where
wroughtest	unknown	wroughtest
thou	prn.subj.p2.mf.sg	thou
?	sent	?
</s>
<s>
blessed	vblex.pp	bless
be	vbser.inf	be
he	prn.subj.p3.m.sg	he
that	cnjsub	that
did	vbdo.past	do
take	vblex.inf	take
knowledge	n.sg	knowledge
of	pr	of
thee	prn.obj.p2.mf.sg	thou
.	sent	.
</s>
<s>
And	cnjcoo	and
she	prn.subj.p3.f.sg	she
shewed	unknown	shewed
her	det.pos.sp	her
mother	n.sg	mother
in	pr	in
law	n.sg	law
with	pr	with
whom	prn.rel.an.mf.sp	whom
she	prn.subj.p3.f.sg	she
had	vblex.past	have
wrought	unknown	wrought
,	cm	,
and	cnjcoo	and
said	vblex.past	say
,	cm	,
The	det.def.sp	the
man	n.sg	man
's	gen	's
name	n.sg	name
with	pr	with
whom	prn.rel.an.mf.sp	whom
I	prn.subj.p1.mf.sg.min	prpers
wrought	unknown	wrought
to	pr	to
day	n.sg	day
is	vbser.pres.p3.sg	be
Boaz	unknown	Boaz
.	sent	.
</s>
</v>
<v at="2:20">
<s>
And	cnjcoo	and
Naomi	np.ant.f.sg	Naomi
said	vblex.past	say
unto	pr	unto
her	det.pos.sp	her
daughter	n.sg	daughter
in	pr	in
law	n.sg	law
,	cm	,
Blessed	vblex.past	bless
be	vbser.inf	be
he	prn.subj.p3.m.sg	he
of	pr	of
the	det.def.sp	the
LORD	n.sg	lord
,	cm	,
who	prn.rel.an.mf.sp	who
hath	vbhaver.pres.p3.sg	have
not	adv	not
left	vblex.pp	leave
off	adv	off
his	det.pos.sp	his
kindness	n.sg	kindness
to	pr	to
the	det.def.sp	the
living	vblex.subs	live
and	cnjcoo	and
to	pr	to
the	det.def.sp	the
dead	adj	dead
.	sent	.
</s>
<s>
And	cnjcoo	and
Naomi	np.ant.f.sg	Naomi
said	vblex.past	say
unto	pr	unto
her	prn.obj.p3.f.sg	her
,	cm	,
The	det.def.sp	the
man	n.sg	man
is	vbser.pres.p3.sg	be
near	adv	near
of	pr	of
kin	unknown	kin
unto	pr	unto
us	prn.obj.p1.mf.pl	us
,	cm	,
one	prn.dem.mf.sg	one
of	pr	of
our	det.pos.sp	our
next	adj	next
kinsmen	unknown	kinsmen
.	sent	.
</s>
</v>
<v at="2:21">
<s>
And	cnjcoo	and
Ruth	np.ant.f.sg	Ruth
the	det.def.sp	the
Moabitess	unknown	Moabitess
said	vblex.past	say
,	cm	,
He	prn.subj.p3.m.sg	prpers
said	vblex.past	say
unto	pr	unto
me	prn.obj.p1.mf.sg	me
also	adv	also
,	cm	,
Thou	prn.subj.p2.mf.sg	thou
shalt	vbmod.pres.p2.sg	shall
keep	vblex.inf	keep
fast	adj.sint	fast
by	pr	by
my	det.pos.sp	my
young	adj.sint	young
men	n.pl	man
,	cm	,
until	cnjadv	until
they	prn.subj.p3.mf.pl	they
have	vbhaver.inf	have
ended	vblex.pp	end
all	prn.qnt.mf.sp	all
my	det.pos.sp	my
harvest	n.sg	harvest
.	sent	.
</s>
</v>
<v at="2:22">
<s>
And	cnjcoo	and
Naomi	np.ant.f.sg	Naomi
said	vblex.past	say
unto	pr	unto
Ruth	np.ant.f.sg	Ruth
her	det.pos.sp	her
daughter	n.sg	daughter
in	pr	in
law	n.sg	law
,	cm	,
It	prn.subj.p3.nt.sg	prpers
is	vbser.pres.p3.sg	be
good	n.sg	good
,	cm	,
my	det.pos.sp	my
daughter	n.sg	daughter
,	cm	,
that	cnjsub	that
thou	prn.subj.p2.mf.sg	thou
go out	vblex.pres	go out
with	pr	with
his	adj.pos.pred	his
maidens	n.pl	maiden
,	cm	,
that	cnjsub	that
they	prn.subj.p3.mf.pl	they
meet	vblex.pres	meet
thee	prn.obj.p2.mf.sg	thou
not	adv	not
in	pr	in
any	prn.qnt.mf.sp	any
other	det.ind.sp	other
field	n.sg	field
.	sent	.
</s>
</v>
<v at="2:23">
<s>
So	cnjadv	so
she	prn.subj.p3.f.sg	she
kept	vblex.past	keep
fast	adv	fast
by	pr	by
the	det.def.sp	the
maidens	n.pl	maiden
of	pr	of
Boaz	unknown	Boaz
to	pr	to
glean	unknown	glean
unto	pr	unto
the	det.def.sp	the
end	n.sg	end
of	pr	of
barley	n.sg	barley
harvest	n.sg	harvest
and	cnjcoo	and
of	pr	of
wheat	n.sg	wheat
harvest	n.sg	harvest
;	sent	;
</s>
<s>
and	cnjcoo	and
dwelt	vblex.past	dwell
with	pr	with
her	det.pos.sp	her
mother	n.sg	mother
in	pr	in
law	n.sg	law
.	sent	.
</s>
</v>
<v at="3:1">
<s>
Then	adv	then
Naomi	np.ant.f.sg	Naomi
her	det.pos.sp	her
mother	n.sg	mother
in	pr	in
law	n.sg	law
said	vblex.past	say
unto	pr	unto
her	prn.obj.p3.f.sg	her
,	cm	,
My	det.pos.sp	my
daughter	n.sg	daughter
,	cm	,
shall	vbmod.pres	shall
I	prn.subj.p1.mf.sg.min	prpers
not	adv	not
seek	vblex.inf	seek
rest	n.sg	rest
for	pr	for
thee	prn.obj.p2.mf.sg	thou
,	cm	,
that	cnjsub	that
it	prn.subj.p3.nt.sg	it
may	vbmod.pres	may
be	vbser.inf	be
well	adv	well
with	pr	with
thee	prn.obj.p2.mf.sg	thou
?	sent	?
</s>
</v>
<v at="3:2">
<s>
And	cnjcoo	and
now	adv	now
is	vbser.pres.p3.sg	be
not	adv	not
Boaz	unknown	Boaz
of	pr	of
our	det.pos.sp	our
kindred	n.sg	kindred
,	cm	,
with	pr	with
whose	det.pos.mf.sp	whose
maidens	n.pl	maiden
thou	prn.subj.p2.mf.sg	thou
wast	vbser.past.p2.sg	be
?	sent	?
</s>
<s>
Behold	vblex.imp	behold
,	cm	,
he	prn.subj.p3.m.sg	he
winnoweth	unknown	winnoweth
barley	n.sg	barley
to	pr	to
night	n.sg	night
in	adv	in
the	det.def.sp	the
threshingfloor	unknown	threshingfloor
.	sent	.
</s>
</v>
<v at="3:3">
<s>
Wash	vblex.imp	wash
thyself	prn.ref.p2.mf.sg	yourself
therefore	adv	therefore
,	cm	,
and	cnjcoo	and
anoint	vblex.pres	anoint
thee	prn.obj.p2.mf.sg	thou
,	cm	,
and	cnjcoo	and
put	vblex.past	put
thy	det.pos.sp	thy
raiment	unknown	raiment
upon	pr	upon
thee	prn.obj.p2.mf.sg	thou
,	cm	,
and	cnjcoo	and
get	vblex.inf	get
thee	prn.obj.p2.mf.sg	thou
down	adv	down
to	pr	to
the	det.def.sp	the
floor	n.sg	floor
:	sent	:
</s>
<s>
but	cnjcoo	but
make	vblex.inf	make
not	adv	not
thyself	prn.ref.p2.mf.sg	yourself
known	vblex.pp	know
unto	pr	unto
the	det.def.sp	the
man	n.sg	man
,	cm	,
until	cnjadv	until
he	prn.subj.p3.m.sg	he
shall	vbmod.pres	shall
have	vbhaver.inf	have
done	vblex.pp	do
eating	vblex.subs	eat
and	cnjcoo	and
drinking	vblex.subs	drink
.	sent	.
</s>
</v>
<v at="3:4">
<s>
And	cnjcoo	and
it	prn.subj.p3.nt.sg	it
shall	vbmod.pres	shall
be	vbser.inf	be
,	cm	,
when	cnjadv	when
he	prn.subj.p3.m.sg	he
lieth	unknown	lieth
down	adv	down
,	cm	,
that	cnjsub	that
thou	prn.subj.p2.mf.sg	thou
shalt	vbmod.pres.p2.sg	shall
mark	vblex.inf	mark
the	det.def.sp	the
place	n.sg	place
where	adv	where
he	prn.subj.p3.m.sg	he
shall	vbmod.pres	shall
lie	n.sg	lie
,	cm	,
and	cnjcoo	and
thou	prn.subj.p2.mf.sg	thou
shalt	vbmod.pres.p2.sg	shall
go in	vblex.inf	go in
,	cm	,
and	cnjcoo	and
uncover	vblex.inf	uncover
his	adj.pos.pred	his
feet	n.pl	foot
,	cm	,
and	cnjcoo	and
lay	vblex.pres	lay
thee	prn.obj.p2.mf.sg	thou
down	adv	down
;	sent	;
</s>
<s>
and	cnjcoo	and
he	prn.subj.p3.m.sg	he
will	vbmod.pres	will
tell	vblex.inf	tell
thee	prn.obj.p2.mf.sg	thou
what	prn.rel.nn.mf.sg	what
thou	prn.subj.p2.mf.sg	thou
shalt	vbmod.pres.p2.sg	shall
do	vblex.inf	do
.	sent	.
</s>
</v>
<v at="3:5">
<s>
And	cnjcoo	and
she	prn.subj.p3.f.sg	she
said	vblex.past	say
unto	pr	unto
her	prn.obj.p3.f.sg	her
,	cm	,
All	predet.sp	all
that	cnjsub	that
thou	prn.subj.p2.mf.sg	thou
sayest	unknown	sayest
unto	pr	unto
me	prn.obj.p1.mf.sg	me
I	prn.subj.p1.mf.sg.min	prpers
will	vbmod.pres	will
do	vblex.inf	do
.	sent	.
</s>
</v>
<v at="3:6">
<s>
And	cnjcoo	and
she	prn.subj.p3.f.sg	she
went down	vblex.past	go down
unto	pr	unto
the	det.def.sp	the
floor	n.sg	floor
,	cm	,
and	cnjcoo	and
did	vblex.past	do
according to	pr	according to
all	prn.qnt.mf.sp	all
that	cnjsub	that
her	det.pos.sp	her
mother	n.sg	mother
in	pr	in
law	n.sg	law
bade	unknown	bade
her	prn.obj.p3.f.sg	her
.	sent	.
</s>
</v>
<v at="3:7">
<s>
And	cnjcoo	and
when	cnjadv	when
Boaz	unknown	Boaz
had	vbhaver.past	have
eaten	vblex.pp	eat
and	cnjcoo	and
drunk	vblex.pp	drink
,	cm	,
and	cnjcoo	and
his	det.pos.sp	his
heart	n.sg	heart
was	vbser.past.p1.sg	be
merry	adj.sint	merry
,	cm	,
he	prn.subj.p3.m.sg	he
went	vblex.past	go
to	pr	to
lie	n.sg	lie
down	adv	down
at the end	adv	at the end
of	pr	of
the	det.def.sp	the
heap	unknown	heap
of	pr	of
corn	n.sg	corn
:	sent	:
</s>
<s>
and	cnjcoo	and
she	prn.subj.p3.f.sg	she
came	vblex.past	come
softly	adv	softly
,	cm	,
and	cnjcoo	and
uncovered	vblex.past	uncover
his	adj.pos.pred	his
feet	n.pl	foot
,	cm	,
and	cnjcoo	and
laid	vblex.past	lay
her	prn.obj.p3.f.sg	her
down	adv	down
.	sent	.
</s>
</v>
<v at="3:8">
<s>
And	cnjcoo	and
it	prn.subj.p3.nt.sg	it
came	vblex.past	come
to	pr	to
pass	vblex.inf	pass
at midnight	adv	at midnight
,	cm	,
that	cnjsub	that
the	det.def.sp	the
man	n.sg	man
was afraid	vblex.past.p1.sg	be afraid
,	cm	,
and	cnjcoo	and
turned	vblex.past	turn
himself	prn.ref.p3.m.sg	himself
:	sent	:
</s>
<s>
and	cnjcoo	and
,	cm	,
behold	vblex.imp	behold
,	cm	,
a	det.ind.sg	a
woman	n.sg	woman
lay	vblex.pres	lay
at	pr	at
his	adj.pos.pred	his
feet	n.pl	foot
.	sent	.
</s>
</v>
<v at="3:9">
<s>
And	cnjcoo	and
he	prn.subj.p3.m.sg	he
said	vblex.past	say
,	cm	,
Who	prn.rel.an.mf.sp	who
art	vbser.pres.p2.sg	be
thou	prn.subj.p2.mf.sg	thou
?	sent	?
</s>
<s>
And	cnjcoo	and
she	prn.subj.p3.f.sg	she
answered	vblex.past	answer
,	cm	,
I	prn.subj.p1.mf.sg.min	prpers
am	vbser.pres.p1.sg	be
Ruth	np.ant.f.sg	Ruth
thine	det.pos.sp	thine
handmaid	unknown	handmaid
:	sent	:
</s>
<s>
spread	vblex.pp	spread
therefore	cnjadv	therefore
thy	det.pos.sp	thy
skirt	n.sg	skirt
over	adv	over
thine	det.pos.sp	thine
handmaid	unknown	handmaid
;	sent	;
</s>
<s>
for	pr	for
thou	prn.subj.p2.mf.sg	thou
art	vbser.pres.p2.sg	be
a	det.ind.sg	a
near	adj.sint	near
kinsman	unknown	kinsman
.	sent	.
</s>
</v>
<v at="3:10">
<s>
And	cnjcoo	and
he	prn.subj.p3.m.sg	he
said	vblex.past	say
,	cm	,
Blessed	vblex.pp	bless
be	vbser.inf	be
thou	prn.subj.p2.mf.sg	thou
of	pr	of
the	det.def.sp	the
LORD	n.sg	lord
,	cm	,
my	det.pos.sp	my
daughter	n.sg	daughter
:	sent	:
</s>
<s>
for	pr	for
thou	prn.subj.p2.mf.sg	thou
hast	vbhaver.pres.p2.sg	have
shewed	unknown	shewed
more	det.qnt.sp	more
kindness	n.sg	kindness
in	pr	in
the	det.def.sp	the
latter	adj	latter
end	n.sg	end
than	cnjsub	than
at the beginning	adv	at the beginning
,	cm	,
inasmuch	unknown	inasmuch
as	cnjadv	as
thou	prn.subj.p2.mf.sg	thou
followedst	unknown	followedst
not	adv	not
young	adj.sint	young
men	n.pl	man
,	cm	,
whether	cnjadv	whether
poor	adj.sint	poor
or	cnjcoo	or
rich	adj.sint	rich
.	sent	.
</s>
</v>
<v at="3:11">
<s>
And	cnjcoo	and
now	adv	now
,	cm	,
my	det.pos.sp	my
daughter	n.sg	daughter
,	cm	,
fear	n.sg	fear
not	adv	not
;	sent	;
</s>
<s>
I	prn.subj.p1.mf.sg	prpers
will	vbmod.pres	will
do	vblex.inf	do
to	pr	to
thee	prn.obj.p2.mf.sg	thou
all	prn.qnt.mf.sp	all
that	cnjsub	that
thou	prn.subj.p2.mf.sg	thou
requirest	unknown	requirest
:	sent	:
</s>
<s>
for	pr	for
all	predet.sp	all
the	det.def.sp	the
city	n.sg	city
of	pr	of
my	det.pos.sp	my
people	n.pl	person
doth	vbdo.pres.p3.sg	do
know	vblex.pres	know
that	cnjsub	that
thou	prn.subj.p2.mf.sg	thou
art	vbser.pres.p2.sg	be
a	det.ind.sg	a
virtuous	adj	virtuous
woman	n.sg	woman
.	sent	.
</s>
</v>
<v at="3:12">
<s>
And	cnjcoo	and
now	adv	now
it	prn.subj.p3.nt.sg	it
is	vbser.pres.p3.sg	be
true	adj.sint	true
that	cnjsub	that
I	prn.subj.p1.mf.sg.min	prpers
am	vbser.pres.p1.sg	be
thy	det.pos.sp	thy
near	adj.sint	near
kinsman	unknown	kinsman
:	sent	:
</s>
<s>
howbeit	unknown	howbeit
there	adv	there
is	vbser.pres.p3.sg	be
a	det.ind.sg	a
kinsman	unknown	kinsman
nearer	adj.sint.comp	near
than	cnjsub	than
I	prn.subj.p1.mf.sg.min	prpers
.	sent	.
</s>
</v>
<v at="3:13">
<s>
Tarry	unknown	Tarry
this	det.dem.sg	this
night	n.sg	night
,	cm	,
and	cnjcoo	and
it	prn.subj.p3.nt.sg	it
shall	vbmod.pres	shall
be	vbser.inf	be
in the morning	adv	in the morning
,	cm	,
that	cnjsub	that
if	cnjsub	if
he	prn.subj.p3.m.sg	he
will	vbmod.pres	will
perform	vblex.inf	perform
unto	pr	unto
thee	prn.obj.p2.mf.sg	thou
the	det.def.sp	the
part	n.sg	part
of	pr	of
a	det.ind.sg	a
kinsman	unknown	kinsman
,	cm	,
well	adv	well
;	sent	;
</s>
<s>
let	vblex.imp	let
him	prn.obj.p3.m.sg	him
do	vblex.pres	do
the	det.def.sp	the
kinsman	unknown	kinsman
's	vbhaver.pres.p3.sg	have
part	n.sg	part
:	sent	:
</s>
<s>
but	cnjcoo	but
if	cnjsub	if
he	prn.subj.p3.m.sg	he
will	vbmod.pres	will
not	adv	not
do	vblex.inf	do
the	det.def.sp	the
part	n.sg	part
of	pr	of
a	det.ind.sg	a
kinsman	unknown	kinsman
to	pr	to
thee	prn.obj.p2.mf.sg	thou
,	cm	,
then	cnjadv	then
will	vbmod.pres	will
I	prn.subj.p1.mf.sg.min	prpers
do	vblex.inf	do
the	det.def.sp	the
part	n.sg	part
of	pr	of
a	det.ind.sg	a
kinsman	unknown	kinsman
to	pr	to
thee	prn.obj.p2.mf.sg	thou
,	cm	,
as	cnjadv	as
the	det.def.sp	the
LORD	n.sg	lord
liveth	unknown	liveth
:	sent	:
</s>
<s>
lie	n.sg	lie
down	adv	down
until	pr	until
the	det.def.sp	the
morning	n.sg	morning
.	sent	.
</s>
</v>
<v at="3:14">
<s>
And	cnjcoo	and
she	prn.subj.p3.f.sg	she
lay	vblex.pres	lay
at	pr	at
his	adj.pos.pred	his
feet	n.pl	foot
until	pr	until
the	det.def.sp	the
morning	n.sg	morning
:	sent	:
</s>
<s>
and	cnjcoo	and
she	prn.subj.p3.f.sg	she
rose	vblex.past	rise
up	adv	up
before	pr	before
one	prn.dem.mf.sg	one
could	vbmod.past	can
know	vblex.inf	know
another	prn.ind.mf.sg	another
.	sent	.
</s>
<s>
And	cnjcoo	and
he	prn.subj.p3.m.sg	he
said	vblex.past	say
,	cm	,
Let	vblex.imp	let
it	prn.obj.p3.nt.sg	it
not	adv	not
be	vbser.inf	be
known	vblex.pp	know
that	cnjsub	that
a	det.ind.sg	a
woman	n.sg	woman
came	vblex.past	come
into	pr	into
the	det.def.sp	the
floor	n.sg	floor
.	sent	.
</s>
</v>
<v at="3:15">
<s>
Also	adv	also
he	prn.subj.p3.m.sg	he
said	vblex.past	say
,	cm	,
Bring	vblex.imp	bring
the	det.def.sp	the
vail	unknown	vail
that	cnjsub	that
thou	prn.subj.p2.mf.sg	thou
hast	vbhaver.pres.p2.sg	have
upon	pr	upon
thee	prn.obj.p2.mf.sg	thou
,	cm	,
and	cnjcoo	and
hold	vblex.inf	hold
it	prn.obj.p3.nt.sg	it
.	sent	.
</s>
<s>
And	cnjcoo	and
when	cnjadv	when
she	prn.subj.p3.f.sg	she
held	vblex.past	hold
it	prn.obj.p3.nt.sg	it
,	cm	,
he	prn.subj.p3.m.sg	he
measured	vblex.past	measure
six	num.pl	six
measures	n.pl	measure
of	pr	of
barley	n.sg	barley
,	cm	,
and	cnjcoo	and
laid	vblex.past	lay
it	prn.obj.p3.nt.sg	it
on	pr	on
her	prn.obj.p3.f.sg	her
:	sent	:
</s>
<s>
and	cnjcoo	and
she	prn.subj.p3.f.sg	she
went	vblex.past	go
into	pr	into
the	det.def.sp	the
city	n.sg	city
.	sent	.
</s>
</v>
<v at="3:16">
<s>
And	cnjcoo	and
when	cnjadv	when
she	prn.subj.p3.f.sg	she
came	vblex.past	come
to	pr	to
her	det.pos.sp	her
mother	n.sg	mother
in	pr	in
law	n.sg	law
,	cm	,
she	prn.subj.p3.f.sg	she
said	vblex.past	say
,	cm	,
Who	prn.rel.an.mf.sp	who
art	vbser.pres.p2.sg	be
thou	prn.subj.p2.mf.sg	thou
,	cm	,
my	det.pos.sp	my
daughter	n.sg	daughter
?	sent	?
</s>
<s>
And	cnjcoo	and
she	prn.subj.p3.f.sg	she
told	vblex.past	tell
her	prn.obj.p3.f.sg	her
all	prn.qnt.mf.sp	all
that	cnjsub	that
the	det.def.sp	the
man	n.sg	man
had	vbhaver.past	have
done	vblex.pp	do
to	pr	to
her	prn.obj.p3.f.sg	her
.	sent	.
</s>
</v>
<v at="3:17">
<s>
And	cnjcoo	and
she	prn.subj.p3.f.sg	she
said	vblex.past	say
,	cm	,
These	prn.dem.mf.pl	this
six	num.pl	six
measures	n.pl	measure
of	pr	of
barley	n.sg	barley
gave	vblex.past	give
he	prn.subj.p3.m.sg	he
me	prn.obj.p1.mf.sg	me
;	sent	;
</s>
<s>
for	pr	for
he	prn.subj.p3.m.sg	he
said	vblex.past	say
to	pr	to
me	prn.obj.p1.mf.sg	me
,	cm	,
Go	vblex.imp	go
not	adv	not
empty	adj.sint	empty
unto	pr	unto
thy	det.pos.sp	thy
mother	n.sg	mother
in	pr	in
law	n.sg	law
.	sent	.
</s>
</v>
<v at="3:18">
<s>
Then	adv	then
said	vblex.past	say
she	prn.subj.p3.f.sg	she
,	cm	,
Sit	vblex.imp	sit
still	adv	still
,	cm	,
my	det.pos.sp	my
daughter	n.sg	daughter
,	cm	,
until	cnjadv	until
thou	prn.subj.p2.mf.sg	thou
know	vblex.pres	know
how	adv.itg	how
the	det.def.sp	the
matter	n.sg	matter
will	vbmod.pres	will
fall	vblex.inf	fall
:	sent	:
</s>
<s>
for	pr	for
the	det.def.sp	the
man	n.sg	man
will	vbmod.pres	will
not	adv	not
be	vbser.inf	be
in	pr	in
rest	n.sg	rest
,	cm	,
until	cnjadv	until
he	prn.subj.p3.m.sg	he
have	vbhaver.inf	have
finished	vblex.pp	finish
the	det.def.sp	the
thing	n.sg	thing
this	det.dem.sg	this
day	n.sg	day
.	sent	.
</s>
</v>
<v at="4:1">
<s>
Then	adv	then
went	vblex.past	go
Boaz	unknown	Boaz
up to	pr	up to
the	det.def.sp	the
gate	n.sg	gate
,	cm	,
and	cnjcoo	and
sat	vblex.past	sit
him	prn.obj.p3.m.sg	him
down there	adv	down there
:	sent	:
</s>
<s>
and	cnjcoo	and
,	cm	,
behold	vblex.imp	behold
,	cm	,
the	det.def.sp	the
kinsman	unknown	kinsman
of	pr	of
whom	prn.rel.an.mf.sp	whom
Boaz	unknown	Boaz
spake	vblex.past	speak
came	vblex.past	come
by	pr	by
;	sent	;
</s>
<s>
unto	pr	unto
whom	prn.rel.an.mf.sp	whom
he	prn.subj.p3.m.sg	he
said	vblex.past	say
,	cm	,
Ho	unknown	Ho
,	cm	,
such a	det.ind.sg	such a
one	num.sg	one
!	sent	!
</s>
<s>
turn	n.sg	turn
aside	adv	aside
,	cm	,
sit down	vblex.imp	sit down
here	adv	here
.	sent	.
</s>
<s>
And	cnjcoo	and
he	prn.subj.p3.m.sg	he
turned	vblex.past	turn
aside	adv	aside
,	cm	,
and	cnjcoo	and
sat down	vblex.past	sit down
.	sent	.
</s>
</v>
<v at="4:2">
<s>
And	cnjcoo	and
he	prn.subj.p3.m.sg	he
took	vblex.past	take
ten	num.pl	ten
men	n.pl	man
of	pr	of
the	det.def.sp	the
elders	n.pl	elder
of	pr	of
the	det.def.sp	the
city	n.sg	city
,	cm	,
and	cnjcoo	and
said	vblex.past	say
,	cm	,
Sit	vblex.imp	sit
ye	prn.subj.p2.mf.pl	ye
down	adv	down
here	adv	here
.	sent	.
</s>
<s>
And	cnjcoo	and
they	prn.subj.p3.mf.pl	they
sat down	vblex.past	sit down
.	sent	.
</s>
</v>
<v at="4:3">
<s>
And	cnjcoo	and
he	prn.subj.p3.m.sg	he
said	vblex.past	say
unto	pr	unto
the	det.def.sp	the
kinsman	unknown	kinsman
,	cm	,
Naomi	np.ant.f.sg	Naomi
,	cm	,
that	cnjsub	that
is	vbser.pres.p3.sg	be
come	vblex.pp	come
again	adv	again
out of	pr	out of
the	det.def.sp	the
country	n.sg	country
of	pr	of
Moab	unknown	Moab
,	cm	,
selleth	unknown	selleth
a	det.ind.sg	a
parcel	n.sg	parcel
of	pr	of
land	n.sg	land
,	cm	,
which	prn.itg.mf.sp	which
was	vbser.past.p1.sg	be
our	det.pos.sp	our
brother	n.sg	brother
Elimelech	unknown	Elimelech
's	vbhaver.pres.p3.sg	have
:	sent	:
</s>
</v>
<v at="4:4">
<s>
And	cnjcoo	and
I	prn.subj.p1.mf.sg.min	prpers
thought	vblex.past	think
to	pr	to
advertise	vblex.inf	advertise
thee	prn.obj.p2.mf.sg	thou
,	cm	,
saying	vblex.pprs	say
,	cm	,
Buy	vblex.imp	buy
it	prn.obj.p3.nt.sg	it
before	pr	before
the	det.def.sp	the
inhabitants	n.pl	inhabitant
,	cm	,
and	cnjcoo	and
before	cnjadv	before
the	det.def.sp	the
elders	n.pl	elder
of	pr	of
my	det.pos.sp	my
people	n.pl	person
.	sent	.
</s>
<s>
If	cnjsub	if
thou	prn.subj.p2.mf.sg	thou
wilt	vbmod.pres.p2.sg	will
redeem	vblex.inf	redeem
it	prn.obj.p3.nt.sg	it
,	cm	,
redeem	vblex.imp	redeem
it	prn.obj.p3.nt.sg	it
:	sent	:
</s>
<s>
but	cnjcoo	but
if	cnjsub	if
thou	prn.subj.p2.mf.sg	thou
wilt	vbmod.pres.p2.sg	will
not	adv	not
redeem	vblex.inf	redeem
it	prn.obj.p3.nt.sg	it
,	cm	,
then	cnjadv	then
tell	vblex.inf	tell
me	prn.obj.p1.mf.sg	me
,	cm	,
that	cnjsub	that
I	prn.subj.p1.mf.sg.min	prpers
may	vbmod.pres	may
know	vblex.inf	know
:	sent	:
</s>
<s>
for	pr	for
there	adv	there
is	vbser.pres.p3.sg	be
none	prn.ind.nt.sg	none
to	pr	to
redeem	vblex.inf	redeem
it	prn.obj.p3.nt.sg	it
beside	pr	beside
thee	prn.obj.p2.mf.sg	thou
;	sent	;
</s>
<s>
and	cnjcoo	and
I	prn.subj.p1.mf.sg.min	prpers
am	vbser.pres.p1.sg	be
after	pr	after
thee	prn.obj.p2.mf.sg	thou
.	sent	.
</s>
<s>
And	cnjcoo	and
he	prn.subj.p3.m.sg	he
said	vblex.past	say
,	cm	,
I	prn.subj.p1.mf.sg.min	prpers
will	vbmod.pres	will
redeem	vblex.inf	redeem
it	prn.obj.p3.nt.sg	it
.	sent	.
</s>
</v>
<v at="4:5">
<s>
Then	adv	then
said	vblex.past	say
Boaz	unknown	Boaz
,	cm	,
What	det.itg.sp	what
day	n.sg	day
thou	prn.subj.p2.mf.sg	thou
buyest	unknown	buyest
the	det.def.sp	the
field	n.sg	field
of	pr	of
the	det.def.sp	the
hand	n.sg	hand
of	pr	of
Naomi	np.ant.f.sg	Naomi
,	cm	,
thou	prn.subj.p2.mf.sg	thou
must	vbmod.pres	must
buy	vblex.inf	buy
it	prn.obj.p3.nt.sg	it
also	adv	also
of	pr	of
Ruth	np.ant.f.sg	Ruth
the	det.def.sp	the
Moabitess	unknown	Moabitess
,	cm	,
the	det.def.sp	the
wife	n.sg	wife
of	pr	of
the	det.def.sp	the
dead	adj	dead
,	cm	,
to	pr	to
raise	vblex.inf	raise
up	pr	up
the	det.def.sp	the
name	n.sg	name
of	pr	of
the	det.def.sp	the
dead	adj	dead
upon	pr	upon
his	det.pos.sp	his
inheritance	n.sg	inheritance
.	sent	.
</s>
</v>
<v at="4:6">
<s>
And	cnjcoo	and
the	det.def.sp	the
kinsman	unknown	kinsman
said	vblex.past	say
,	cm	,
I	prn.subj.p1.mf.sg.min	prpers
cannot	vbmod.pres	can
redeem	vblex.inf	redeem
it	prn.obj.p3.nt.sg	it
for	pr	for
myself	prn.ref.p1.mf.sg	myself
,	cm	,
lest	unknown	lest
I	prn.subj.p1.mf.sg.min	prpers
mar	vblex.pres	mar
mine	n.sg	mine
own	adj	own
inheritance	n.sg	inheritance
:	sent	:
</s>
<s>
redeem	vblex.imp	redeem
thou	prn.subj.p2.mf.sg	thou
my	det.pos.sp	my
right	adj	right
to	pr	to
thyself	prn.ref.p2.mf.sg	yourself
;	sent	;
</s>
<s>
for	pr	for
I	prn.subj.p1.mf.sg.min	prpers
cannot	vbmod.pres	can
redeem	vblex.inf	redeem
it	prn.obj.p3.nt.sg	it
.	sent	.
</s>
</v>
<v at="4:7">
<s>
Now	adv	now
this	prn.dem.mf.sg	this
was	vbser.past.p1.sg	be
the	det.def.sp	the
manner	n.sg	manner
in	pr	in
former	adj	former
time	n.sg	time
in	pr	in
Israel	np.top.sg	Israel
concerning	pr	concerning
redeeming	vblex.subs	redeem
and	cnjcoo	and
concerning	vblex.ger	concern
changing	vblex.subs	change
,	cm	,
for	pr	for
to	pr	to
confirm	vblex.inf	confirm
all	predet.sp	all
things	n.pl	thing
;	sent	;
</s>
<s>
a	det.ind.sg	a
man	n.sg	man
plucked	vblex.pp	pluck
off	adv	off
his	det.pos.sp	his
shoe	n.sg	shoe
,	cm	,
and	cnjcoo	and
gave	vblex.past	give
it	prn.obj.p3.nt.sg	it
to	pr	to
his	det.pos.sp	his
neighbour	n.sg	neighbour
:	sent	:
</s>
<s>
and	cnjcoo	and
this	prn.dem.mf.sg	this
was	vbser.past.p3.sg	be
a	det.ind.sg	a
testimony	n.sg	testimony
in	pr	in
Israel	np.top.sg	Israel
.	sent	.
</s>
</v>
<v at="4:8">
<s>
Therefore	adv	therefore
the	det.def.sp	the
kinsman	unknown	kinsman
said	vblex.past	say
unto	pr	unto
Boaz	unknown	Boaz
,	cm	,
Buy	vblex.imp	buy
it	prn.obj.p3.nt.sg	it
for	pr	for
thee	prn.obj.p2.mf.sg	thou
.	sent	.
</s>
<s>
So	cnjadv	so
he	prn.subj.p3.m.sg	he
drew	vblex.past	draw
off	adv	off
his	det.pos.sp	his
shoe	n.sg	shoe
.	sent	.
</s>
</v>
<v at="4:9">
<s>
And	cnjcoo	and
Boaz	unknown	Boaz
said	vblex.past	say
unto	pr	unto
the	det.def.sp	the
elders	n.pl	elder
,	cm	,
and	cnjcoo	and
unto	pr	unto
all	predet.sp	all
the	det.def.sp	the
people	n.pl	person
,	cm	,
Ye	prn.subj.p2.mf.pl	ye
are	vbser.pres	be
witnesses	vblex.pres.p3.sg	witness
this	det.dem.sg	this
day	n.sg	day
,	cm	,
that	cnjsub	that
I	prn.subj.p1.mf.sg.min	prpers
have	vbhaver.inf	have
bought	vblex.pp	buy
all	prn.qnt.mf.sp	all
that	prn.dem.mf.sg	that
was	vbser.past.p3.sg	be
Elimelech	unknown	Elimelech
's	vbhaver.pres.p3.sg	have
,	cm	,
and all that	adv	and all that
was	vbser.past.p3.sg	be
Chilion	unknown	Chilion
's	vbhaver.pres.p3.sg	have
and	cnjcoo	and
Mahlon	unknown	Mahlon
's	vbhaver.pres.p3.sg	have
,	cm	,
of	pr	of
the	det.def.sp	the
hand	n.sg	hand
of	pr	of
Naomi	np.ant.f.sg	Naomi
.	sent	.
</s>
</v>
<v at="4:10">
<s>
Moreover	adv	moreover
Ruth	np.ant.f.sg	Ruth
the	det.def.sp	the
Moabitess	unknown	Moabitess
,	cm	,
the	det.def.sp	the
wife	n.sg	wife
of	pr	of
Mahlon	unknown	Mahlon
,	cm	,
have	vblex.imp	have
I	prn.subj.p1.mf.sg.min	prpers
purchased	vblex.pp	purchase
to	pr	to
be	vbser.inf	be
my	det.pos.sp	my
wife	n.sg	wife
,	cm	,
to	pr	to
raise	vblex.inf	raise
up	pr	up
the	det.def.sp	the
name	n.sg	name
of	pr	of
the	det.def.sp	the
dead	adj	dead
upon	pr	upon
his	det.pos.sp	his
inheritance	n.sg	inheritance
,	cm	,
that	cnjsub	that
the	det.def.sp	the
name	n.sg	name
of	pr	of
the	det.def.sp	the
dead	adj	dead
be	vbser.inf	be
not	adv	not
cut	vblex.pp	cut
off	adv	off
from	pr	from
among	pr	among
his	adj.pos.pred	his
brethren	n.pl	brother
,	cm	,
and	cnjcoo	and
from	pr	from
the	det.def.sp	the
gate	n.sg	gate
of	pr	of
his	det.pos.sp	his
place	n.sg	place
:	sent	:
</s>
<s>
ye	prn.subj.p2.mf.pl	ye
are	vbser.pres	be
witnesses	vblex.pres.p3.sg	witness
this	det.dem.sg	this
day	n.sg	day
.	sent	.
</s>
</v>
<v at="4:11">
<s>
And	cnjcoo	and
all	predet.sp	all
the	det.def.sp	the
people	n.pl	person
that	prn.dem.mf.sg	that
were	vbser.past	be
in	pr	in
the	det.def.sp	the
gate	n.sg	gate
,	cm	,
and	cnjcoo	and
the	det.def.sp	the
elders	n.pl	elder
,	cm	,
said	vblex.pp	say
,	cm	,
We	prn.subj.p1.mf.pl	prpers
are	vbser.pres	be
witnesses	n.pl	witness
.	sent	.
</s>
<s>
The	det.def.sp	the
LORD	n.sg	lord
make	vblex.pres	make
the	det.def.sp	the
woman	n.sg	woman
that	prn.rel.an.mf.sp	that
is	vbser.pres.p3.sg	be
come	vblex.pp	come
into	pr	into
thine	det.pos.sp	thine
house	n.sg	house
like	pr	like
Rachel	np.ant.f.sg	Rachel
and	cnjcoo	and
like	pr	like
Leah	np.ant.f.sg	Leah
,	cm	,
which	prn.itg.mf.sp	which
two	num.pl	two
did	vbdo.past	do
build	vblex.inf	build
the	det.def.sp	the
house	n.sg	house
of	pr	of
Israel	np.top.sg	Israel
:	sent	:
</s>
<s>
and	cnjcoo	and
do	vblex.inf	do
thou	prn.subj.p2.mf.sg	thou
worthily	unknown	worthily
in	adv	in
Ephratah	unknown	Ephratah
,	cm	,
and	cnjcoo	and
be	vbser.inf	be
famous	adj	famous
in	pr	in
Bethlehem	np.top.sg	Bethlehem
:	sent	:
</s>
</v>
<v at="4:12">
<s>
And	cnjcoo	and
let	vblex.past	let
thy	det.pos.sp	thy
house	n.sg	house
be	vbser.inf	be
like	pr	like
the	det.def.sp	the
house	n.sg	house
of	pr	of
Pharez	unknown	Pharez
,	cm	,
whom	prn.rel.an.mf.sp	whom
Tamar	np.ant.m.sg	Tamar
bare	unknown	bare
unto	pr	unto
Judah	np.ant.m.sg	Judah
,	cm	,
of	pr	of
the	det.def.sp	the
seed	n.sg	seed
which	prn.itg.mf.sp	which
the	det.def.sp	the
LORD	n.sg	lord
shall	vbmod.pres	shall
give	vblex.inf	give
thee	prn.obj.p2.mf.sg	thou
of	pr	of
this	det.dem.sg	this
young	adj.sint	young
woman	n.sg	woman
.	sent	.
</s>
</v>
<v at="4:13">
<s>
So	cnjadv	so
Boaz	unknown	Boaz
took	vblex.past	take
Ruth	np.ant.f.sg	Ruth
,	cm	,
and	cnjcoo	and
she	prn.subj.p3.f.sg	she
was	vbser.past.p1.sg	be
his	det.pos.sp	his
wife	n.sg	wife
:	sent	:
</s>
<s>
and	cnjcoo	and
when	cnjadv	when
he	prn.subj.p3.m.sg	he
went in	vblex.past	go in
unto	pr	unto
her	prn.obj.p3.f.sg	her
,	cm	,
the	det.def.sp	the
LORD	n.sg	lord
gave	vblex.past	give
her	det.pos.sp	her
conception	n.sg	conception
,	cm	,
and	cnjcoo	and
she	prn.subj.p3.f.sg	she
bare	unknown	bare
a	det.ind.sg	a
son	n.sg	son
.	sent	.
</s>
</v>
<v at="4:14">
<s>
And	cnjcoo	and
the	det.def.sp	the
women	n.pl	woman
said	vblex.past	say
unto	pr	unto
Naomi	np.ant.f.sg	Naomi
,	cm	,
Blessed	vblex.past	bless
be	vbser.inf	be
the	det.def.sp	the
LORD	n.sg	lord
,	cm	,
which	prn.itg.mf.sp	which
hath	vbhaver.pres.p3.sg	have
not	adv	not
left	vblex.past	leave
thee	prn.obj.p2.mf.sg	thou
this	det.dem.sg	this
day	n.sg	day
without	pr	without
a	det.ind.sg	a
kinsman	unknown	kinsman
,	cm	,
that	cnjsub	that
his	det.pos.sp	his
name	n.sg	name
may	vbmod.pres	may
be	vbser.inf	be
famous	adj	famous
in	pr	in
Israel	np.top.sg	Israel
.	sent	.
</s>
</v>
<v at="4:15">
<s>
And	cnjcoo	and
he	prn.subj.p3.m.sg	he
shall	vbmod.pres	shall
be	vbser.inf	be
unto	pr	unto
thee	prn.obj.p2.mf.sg	thou
a	det.ind.sg	a
restorer	unknown	restorer
of	pr	of
thy	det.pos.sp	thy
life	n.sg	life
,	cm	,
and	cnjcoo	and
a	det.ind.sg	a
nourisher	unknown	nourisher
of	pr	of
thine	det.pos.sp	thine
old age	n.sg	old age
:	sent	:
</s>
<s>
for	pr	for
thy	det.pos.sp	thy
daughter	n.sg	daughter
in	pr	in
law	n.sg	law
,	cm	,
which	prn.itg.mf.sp	which
loveth	unknown	loveth
thee	prn.obj.p2.mf.sg	thou
,	cm	,
which	prn.itg.mf.sp	which
is	vbser.pres.p3.sg	be
better	adj.sint.comp	good
to	pr	to
thee	prn.obj.p2.mf.sg	thou
than	cnjsub	than
seven	num.pl	seven
sons	n.pl	son
,	cm	,
hath	vbhaver.pres.p3.sg	have
born	adj	born
him	prn.obj.p3.m.sg	him
.	sent	.
</s>
</v>
<v at="4:16">
<s>
And	cnjcoo	and
Naomi	np.ant.f.sg	Naomi
took	vblex.past	take
the	det.def.sp	the
child	n.sg	child
,	cm	,
and	cnjcoo	and
laid	vblex.pp	lay
it	prn.obj.p3.nt.sg	it
in	pr	in
her	prn.obj.p3.f.sg	her
bosom	unknown	bosom
,	cm	,
and	cnjcoo	and
became	vblex.past	become
nurse	n.sg	nurse
unto	pr	unto
it	prn.obj.p3.nt.sg	it
.	sent	.
</s>
</v>
<v at="4:17">
<s>
And	cnjcoo	and
the	det.def.sp	the
women	n.pl	woman
her	det.pos.sp	her
neighbours	n.pl	neighbour
gave	vblex.past	give
it	prn.obj.p3.nt.sg	it
a	det.ind.sg	a
name	n.sg	name
,	cm	,
saying	vblex.pprs	say
,	cm	,
There	adv	there
is	vbser.pres.p3.sg	be
a	det.ind.sg	a
son	n.sg	son
born	vblex.pp	bear
to	pr	to
Naomi	np.ant.f.sg	Naomi
;	sent	;
</s>
<s>
and	cnjcoo	and
they	prn.subj.p3.mf.pl	they
called	vblex.past	call
his	det.pos.sp	his
name	n.sg	name
Obed	np.ant.m.sg	Obed
:	sent	:
</s>
<s>
he	prn.subj.p3.m.sg	he
is	vbser.pres.p3.sg	be
the	det.def.sp	the
father	n.sg	father
of	pr	of
Jesse	np.ant.m.sg	Jesse
,	cm	,
the	det.def.sp	the
father	n.sg	father
of	pr	of
David	np.cog.sg	David
.	sent	.
</s>
</v>
<v at="4:18">
<s>
Now	adv	now
these	prn.dem.mf.pl	this
are	vbser.pres	be
the	det.def.sp	the
generations	n.pl	generation
of	pr	of
Pharez	unknown	Pharez
:	sent	:
</s>
<s>
Pharez	unknown	Pharez
begat	unknown	begat
Hezron	unknown	Hezron
,	cm	,
</v>
<v at="4:19">
And	cnjcoo	and
Hezron	unknown	Hezron
begat	unknown	begat
Ram	n.sg	ram
,	cm	,
and	cnjcoo	and
Ram	n.sg	ram
begat	unknown	begat
Amminadab	unknown	Amminadab
,	cm	,
</v>
<v at="4:20">
And	cnjcoo	and
Amminadab	unknown	Amminadab
begat	unknown	begat
Nahshon	unknown	Nahshon
,	cm	,
and	cnjcoo	and
Nahshon	unknown	Nahshon
begat	unknown	begat
Salmon	n.sg	salmon
,	cm	,
</v>
<v at="4:21">
And	cnjcoo	and
Salmon	np.cog.sg	Salmon
begat	unknown	begat
Boaz	unknown	Boaz
,	cm	,
and	cnjcoo	and
Boaz	unknown	Boaz
begat	unknown	begat
Obed	np.ant.m.sg	Obed
,	cm	,
</v>
<v at="4:22">
And	cnjcoo	and
Obed	np.ant.m.sg	Obed
begat	unknown	begat
Jesse	np.ant.m.sg	Jesse
,	cm	,
and	cnjcoo	and
Jesse	np.ant.m.sg	Jesse
begat	unknown	begat
David	np.cog.sg	David
.	sent	.
</s>
<s>
.	sent	.
</s>
</v>
</doc>
