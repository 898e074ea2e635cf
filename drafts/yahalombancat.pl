% Yahalom, simpler form, with plain concatenation (Burrows, Abadi and Needham 1989; attack: Syverson 1994)
%   1. A -> B: A, Na
%   2. B -> S: B, Nb, {A, Na}Kbs
%   3. S -> A: Nb, {B, Kab, Na}Kas, {A, Kab, Nb}Kbs
%   4. A -> B: {A, Kab, Nb}Kbs, {Nb}Kab
%   5. B -> A: {s}Kab    (added; A sends the like after message 3)
% As yahalomban.pl, but tuples are pairs nested to the right, and only A, B and
% the server run it (kas and kbs are the long-term keys): the attacker needs no account.
% Kab is one name: as a function of the nonces it would nest without end, because
% the server takes its own ticket for a message 2.
% literature: attack   a nonce Na that is itself a pair (X, Nb) makes B's message 2 serve as ticket for the key X
% answer: derivable 51 4 7

attacker(senc(M,K)) :- attacker(M), attacker(K).
attacker(M) :- attacker(senc(M,K)), attacker(K).
attacker(pair(X,Y)) :- attacker(X), attacker(Y).
attacker(X) :- attacker(pair(X,Y)).
attacker(Y) :- attacker(pair(X,Y)).

attacker(ha).
attacker(hb).
attacker(c).

% message 1
attacker(na).
% message 2
attacker(nb(N)) :- attacker(N).
attacker(senc(pair(ha,N),kbs)) :- attacker(N).
% message 3, its two ciphers
attacker(senc(pair(hb,pair(kab,N)),kas)) :- attacker(O), attacker(senc(pair(ha,N),kbs)).
attacker(senc(pair(ha,pair(kab,O)),kbs)) :- attacker(O), attacker(senc(pair(ha,N),kbs)).
% message 4
attacker(senc(O,K)) :- attacker(O), attacker(senc(pair(hb,pair(K,na)),kas)).
% message 5, from B and from A
attacker(senc(s,K)) :- attacker(N), attacker(senc(pair(ha,pair(K,nb(N))),kbs)), attacker(senc(nb(N),K)).
attacker(senc(s,K)) :- attacker(senc(pair(hb,pair(K,na)),kas)).

?- attacker(s).
