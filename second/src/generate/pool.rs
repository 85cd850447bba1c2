//! Treacherous tokens, and the places where particular replacements are worth most.
//! In these lists `;` parts phrases, and a phrase may be of several tokens or of none.

/// Words that are refused wherever they stand, then words that only can't be declared.
pub const LISTED: &str = "\
    or imply forall exists when either * / #t scale-up scale-down change :metric :axiom :derived \
    ?duration and not assign increase decrease";

/// What may take a number's place.
pub const NUMERALS: &str = "\
    ( + 5 ); ( - ); ( + ); ( + 1 2 3 ); ( - 1 2 3 ); ( 5 ); ( -5 ); ( - 5 ); -5; ( - -5 ); a; ?x; \
    ( * 1 2 ); ( / 1 2 ); #t; ( = 1 2 ); ( < 1 2 ); ( and ); ?duration; ( + 1 ( - 2 ) ); \
    ( + ( 1 ) 2 ); ( ); ( a; 5 5; ; - 5; + 5 5; ( no-such-name ); ( ?x ); ( increase 1 2 ); \
    ( not 5 ); ( - ( - ( - 5 ) ) ); ( :x )";

/// Tokens for domain and problem.
pub const TEXT: &str = "\
    and; not; assign; increase; decrease; or; imply; forall; exists; when; either; *; /; #t; #T; \
    scale-up; scale-down; change; :metric; :axiom; :derived; OR; Imply; ?or; :or; metric; ?and; \
    ?not; ?duration; ?DURATION; duration; :duration; ?; :; -; --; --5; +5; .5; 5.; 1..2; 5-3; \
    1e3; 5a; 0x1; 1234567890; 123456789; 1.2345; 1.234; 0.0000; -5; -0; - 5; -1234567890; -1.; \
    _a; a.b; a:b; -a; a-; a_; a?b; ??a; ::a; ?:a; :?a; ?5; :5; ?-; :-; [; ]; [ 5 ]; =; <; <=; >; \
    >=; =<; ==; <>; =5; +; object; Object; number; at; over; start; all; end; define; domain; \
    problem; :requirements; :types; :constants; :predicates; :functions; :action; \
    :durative-action; :domain; :objects; :init; :goal; :parameters; :precondition; :condition; \
    :effect; :strips; :adl; (; ); ( ); ( and ); ) (; ( (; a; b; x; ?x; ?a; no-such-name; \
    ?no-such-name; 0; 5; #; #tt; ##t; *a; a*; a/b; //; \"a\"; '; {; }; |; ~; @x; %; &; \\; !; $; \
    ,; `; ^; abcdefghijklmnopqrstuvwxyz-_0123; abcdefghijklmnopqrstuvwxyz-_01234; \
    ?abcdefghijklmnopqrstuvwxyz-_0123; ?abcdefghijklmnopqrstuvwxyz-_01234; \
    :abcdefghijklmnopqrstuvwxyz-_0123; :abcdefghijklmnopqrstuvwxyz-_01234; \
    abcdefghijklmnopqrstuvwxyz.abcdefghijklmn; 1234567890123456789012345678901234567890; \
    ?abcdefghijklmnopqrstuvwxyz?abcdefghijklmn; _bcdefghijklmnopqrstuvwxyz-_012345";

/// Tokens for plans.
pub const PLAN: &str = "\
    :; [; ]; (; ); ( ); [ ]; [ 0 ]; [ 0.000 ]; [ 5 ]; [ 000000000 ]; -5; -0; --5; 5.; .5; 5a; \
    1..2; 1e3; 5-3; 1234567890; 999999999.999; 000000005.000; 0.0001; 1.2345; 0; 0.001; ?x; ?; \
    ??; ?duration; ?5; =; <=; >; +; -; *; /; #t; #T; #; or; and; not; assign; either; forall; \
    :strips; :metric; :action; a:b; a.b; _a; -a; a; b; A; object; no-such-name; start; at; \
    abcdefghijklmnopqrstuvwxyz-_0123; abcdefghijklmnopqrstuvwxyz-_01234; \
    ?abcdefghijklmnopqrstuvwxyz-_01234; abcdefghijklmnopqrstuvwxyz.-_0123456; : :; [ [; ] ]; ( (; \
    ) ); {; }; '; @; \"; !; ~";

/// What may stand after the last section, inside or outside the last bracket.
pub const TAILS: &str = "\
    ); (; a; 5; or; ?x; :metric; ( :metric minimize ( x ) ); ( metric ); ( :metric; \
    ( :constraints ); ( :goal ( and ) ); ( :init ); ( :objects ); ( :requirements :strips ); \
    ( :types a ); ( :action a :parameters ( ) ); ( :derived ); ( ); ( 5 ); ( ( ) ); ( or ); \
    ( define; [; -; 1.; #t; ( :durative-action a :parameters ( ) :duration ( = ?duration 5 ) ); \
    ( :predicates ( a ) ); ( :functions ( a ) ); ( :constants ); ( :domain a ); \
    ( abcdefghijklmnopqrstuvwxyz-_01234; ( :abcdefghijklmnopqrstuvwxyz-_01234";

/// A word, how far after it, and what may take the place of the token there. Each line is as
/// likely as any other.
pub const RECIPES: &str = "\
- 1 ( either a b ); ( either; ( EITHER ); either; ( ?either; ( either-or )
- 1 (; ( a ); ( ); ( or ); ( 5. ); ( :x )
- 1 object; OBJECT; number; no-such-type; a - b; and; a
- 1 ?x; 5; -; ); :types; ; 1.; or
:requirements 0 :requirement; :types; requirements; ; :requirements :requirements
:requirements 1 :adl; :fluent; :disjunctive-preconditions; :numeric-fluents; :strip; :stripss
:requirements 1 :STRIPS :strips; :domain; :metric; :typing-and-a-very-long-flag-beyond-32
:requirements 1 strips; :; 5; =; or; ?x; ?or; #t; ( :strips ); 1.
:requirements 1 typing-and-a-very-long-flag-beyond-32; ?typing-and-a-very-long-flag-beyond-32
:domain 1 other; object; no-such-domain; a; aa; a-; duration; domain; and
:domain 1 or; ; 5; ?x; :x; a b; ( a ); 1.; #t; forall
:domain 1 abcdefghijklmnopqrstuvwxyz-_0123; abcdefghijklmnopqrstuvwxyz-_01234
:domain 0 :problem; domain; :requirements; :objects; ; :derived
:duration 2 <=; >=; <; >; +; -; ==; *
:duration 2 and; or; at; not; dur; ?duration; :duration; #t; ?x
:duration 2 5; (; ); ; 1.; = =; [; ( )
:duration 2 abcdefghijklmnopqrstuvwxyz-_01234; ?abcdefghijklmnopqrstuvwxyz-_01234
:duration 2 :abcdefghijklmnopqrstuvwxyz-_01234; abcdefghijklmnopqrstuvwxyz.-_0123456
:duration 3 ?d; duration; ?DURATION; ?durations; :duration; ?; ?duration ?duration
:duration 3 5; ( ?duration ); ); (; ; ?duration 5; =; or; ?duration -
:duration 3 abcdefghijklmnopqrstuvwxyz-_01234; ?abcdefghijklmnopqrstuvwxyz-_01234; 1.; *; forall
:duration 1 ( and (; ?duration; ( ); 5; ( at start (; ; ( (; ( not (; = (; :duration (
:duration 1 ( = ?duration 5 ) (; ( = ?duration ( a ) ) (
:duration 0 ; :condition; :precondition; :durations; duration; :parameters; :effect
?duration 0 ?duration ?duration; ?x; ( f ); ?durationx; duration
not 1 ( and (; ( and ) (; ( AND (; ( not (; ( or (; ( ) (; ( (
not 1 ; a; 5; ( = ( a ) 5 ) (; ( assign (; ( ?x ) (
not 0 and; or; not not; ; when; imply; =; nor
and 0 or; imply; forall; exists; not; when; nand
and 0 ; and and; and ( ); ( and ); and ( and; ?and; :and; and 5; and a
and 0 and ( not ( and ) ); and ( not ); and ( or ); and ( and ) ( and ); = ( )
at 1 start; end; all; START; middle; start start; or; ?start; :start
at 1 ( start ); 5; ; abcdefghijklmnopqrstuvwxyz-_01234; start ( and ); 1.
at 0 over all ( and ) ) ( at; at end ( and ) ) ( at; at start ( and ) ) ( at
at 0 over; when; before; and; not; ( at; =; increase; either; and ( at
over 1 all; start; end; ALL; all all; ; over; exists
over 0 at; when; during; and; not; forall; over all ( and ) ) ( over
increase 0 scale-up; scale-down; change; decrease; assign; INCREASE
increase 0 =; raise; +; and; ; increase increase; ?increase; not
assign 0 change; =; assigned; scale-up; assign (; not; ASSIGN
decrease 0 scale-down; -; descrease; increase ( a ) 5 ) ( decrease
= 0 <; <=; >; >=; ==; <>; eq
= 0 +; -; *; or; and; ; = =; = 5
+ 1 ; 5 5; ( + 5 ); ( - 5 ); a
= 1 ; a; 5; ?x; ( ); ( - 5 ) (; ( + 1 2 ) (; ( a; ?duration
= 2 5; a; ?x; ( ); ( a ); ); ( - 5 ); ; =; no-such-name; ( f )
:parameters 0 ; :params; :precondition; :parameters ( ) :parameters; params
:parameters 1 ; ?x; ( ?duration; ( and; ( ?x ?x; ( x; ( 5; ( - a; ( ?
:precondition 0 :condition; :effect; ; :duration
:precondition 0 :precondition ( and ) :precondition; :preconditions; precondition
:condition 0 :precondition; :effect; ; :duration
:condition 0 :condition ( and ) :condition; :conditions; condition
:effect 0 :effects; :precondition; ; effect; :effect ( ) :effect
:effect 0 :effect ( and ) :effect; :effect ( and ) :condition; :effect ( not ( and ) ) :effect
:effect 1 ( over all (; ( at start (; ( at end (; ( and ( over all (; ( not ( and (
:action 0 :durative-action; :actions; :process; action
:action 0 :derived; :axiom; ; :metric; :types; :predicates ) ( :action
:durative-action 0 ; :action; :durative; :durative-actions
:goal 0 :metric; :goals; :goal-state; goal; ; :axiom
:goal 0 :init ) ( :goal; :objects ) ( :goal; :goal ( and ); :goal ( and ) ) ( :goal
:goal 0 :goal ?x; :goal ( not ( and ) ); :goal ( and ) ) ( ); :goal ( )
:init 0 :init ( not ( a ) ); :init ( and ); :init ( = a 5 ); :init ( = a b ); :init ( a )
:init 0 :init ( = ( a ) 5 ) ( = ( a ) 5 ); :init ( = ( a ) 5 ) ( = ( a ) x )
:init 0 :init 5; :init ) ( :init; :goal; :init ( ); :init ( or ); :inits; :types
:init 0 :init ( = 5 5 ); :init ( = ( a ) ( a ) ); :init ( = ( no-such-name ) 5 )
:init 0 :init ( = ( a ) - 5 ); :init ( ?x ); :init a; :init ( = ( a ) a )
:init 0 :init ( > ( a ) 5 ); :init ( increase ( a ) 5 ); :init ( at 5 ( a ) )
:objects 0 :constants; :object; objects; :requirements ) ( :objects; :init
:objects 1 and; a a; - object; or; object; ?x; 5; a - a; ) ( :objects
:types 0 :type; :constants; types; :objects; :types ) ( :types; :derived
:types 1 object; a a; a b - a; - object; a - b b; a - a
:types 1 and; either; 5; not; increase; ?x; OBJECT; Object
:constants 0 :objects; :types; :constant; :constants ) ( :constants
:predicates 0 :predicates a; :functions; :predicate; :predicates ( )
:predicates 2 and; not; =; a; or; ?x; 5; ( a ); <; at; change
:functions 0 :functions a; :predicates; :functions ( ); :functions ( + )
:functions 2 assign; increase; -; +; *; a ) - number ( a; ?duration
define 0 ; defined; and; DEFINE; (; define define; domain; :define
domain 0 problem; ; DOMAIN; domains; :domain; or
domain 1 ; and; either; 5; ?x; a b; object; define
problem 0 domain; ; problems; exists
problem 1 ; and; change; 1.; :x; a b; abcdefghijklmnopqrstuvwxyz-_01234
";
