% Yahalom, simpler form (Burrows, Abadi and Needham 1989)
%   1. A -> B: A, Na
%   2. B -> S: B, Nb, {A, Na}Kbs
%   3. S -> A: Nb, {B, Kab, Na}Kas, {A, Kab, Nb}Kbs
%   4. A -> B: {A, Kab, Nb}Kbs, {Nb}Kab
%   5. B -> A: {s}Kab    (added; A sends the like after message 3)
% A (ha) is initiator with any host, B (hb) responder to any host, the server
% serves any two; hc is the attacker's host. Tuples keep their length.
% literature: secret   secure with tuples of fixed length (Blanchet 2001, section 5.1 and Figure 5)
% answer: secret 126 1 0
% sanity: reached attacker(senc(s,kab(ha,hb,na(hb),nb(ha,na(hb)))))
% sanity: leak attacker(key(ha))

attacker(senc(M,K)) :- attacker(M), attacker(K).
attacker(M) :- attacker(senc(M,K)), attacker(K).
attacker(t2(X,Y)) :- attacker(X), attacker(Y).
attacker(X) :- attacker(t2(X,Y)).
attacker(Y) :- attacker(t2(X,Y)).
attacker(t3(X,Y,Z)) :- attacker(X), attacker(Y), attacker(Z).
attacker(X) :- attacker(t3(X,Y,Z)).
attacker(Y) :- attacker(t3(X,Y,Z)).
attacker(Z) :- attacker(t3(X,Y,Z)).

attacker(ha).
attacker(hb).
attacker(hc).
attacker(key(hc)).

% message 1
attacker(na(Y)) :- attacker(Y).
% message 2
attacker(nb(X,N)) :- attacker(X), attacker(N).
attacker(senc(t2(X,N),key(hb))) :- attacker(X), attacker(N).
% message 3, its two ciphers
attacker(senc(t3(Y,kab(X,Y,N,O),N),key(X))) :- attacker(Y), attacker(O), attacker(senc(t2(X,N),key(Y))).
attacker(senc(t3(X,kab(X,Y,N,O),O),key(Y))) :- attacker(Y), attacker(O), attacker(senc(t2(X,N),key(Y))).
% message 4
attacker(senc(O,K)) :- attacker(Y), attacker(O), attacker(senc(t3(Y,K,na(Y)),key(ha))).
% message 5, from B and from A
attacker(senc(s,K)) :- attacker(N), attacker(senc(t3(ha,K,nb(ha,N)),key(hb))), attacker(senc(nb(ha,N),K)).
attacker(senc(s,K)) :- attacker(senc(t3(hb,K,na(hb)),key(ha))).

?- attacker(s).
