% Neuman-Stubblebine, the initial exchange (Neuman and Stubblebine 1993)
%   1. A -> B: A, Na
%   2. B -> S: B, {A, Na, Tb}Kbs, Nb
%   3. S -> A: {B, Na, Kab, Tb}Kas, {A, Kab, Tb}Kbs, Nb
%   4. A -> B: {A, Kab, Tb}Kbs, {Nb}Kab
%   5. B -> A: {s}Kab    (added)
% Every host plays every role; hc is the attacker's host, key(H) is shared with
% the server. Tb is one public value. Message 2's cipher and the ticket have one shape;
% Kab is a function of the names alone, since with Na in it the server's own tickets,
% sent in as message 2, would make it nest without end.
% literature: attack   message 2's cipher serves as ticket, so that Na is taken for the key (Hwang and others 1995, Clark and Jacob 1997)
% answer: derivable 144 4 7

attacker(senc(M,K)) :- attacker(M), attacker(K).
attacker(M) :- attacker(senc(M,K)), attacker(K).
attacker(t3(X,Y,Z)) :- attacker(X), attacker(Y), attacker(Z).
attacker(X) :- attacker(t3(X,Y,Z)).
attacker(Y) :- attacker(t3(X,Y,Z)).
attacker(Z) :- attacker(t3(X,Y,Z)).
attacker(t4(X,Y,Z,W)) :- attacker(X), attacker(Y), attacker(Z), attacker(W).
attacker(X) :- attacker(t4(X,Y,Z,W)).
attacker(Y) :- attacker(t4(X,Y,Z,W)).
attacker(Z) :- attacker(t4(X,Y,Z,W)).
attacker(W) :- attacker(t4(X,Y,Z,W)).

attacker(ha).
attacker(hb).
attacker(hc).
attacker(key(hc)).
attacker(time).

% message 1
attacker(na(X,Y)) :- attacker(X), attacker(Y).
% message 2
attacker(senc(t3(X,N,time),key(Y))) :- attacker(X), attacker(Y), attacker(N).
attacker(nb(X,Y,N)) :- attacker(X), attacker(Y), attacker(N).
% message 3, its two ciphers
attacker(senc(t4(Y,N,kab(X,Y),T),key(X))) :- attacker(senc(t3(X,N,T),key(Y))).
attacker(senc(t3(X,kab(X,Y),T),key(Y))) :- attacker(senc(t3(X,N,T),key(Y))).
% message 4
attacker(senc(O,K)) :- attacker(O), attacker(senc(t4(Y,na(X,Y),K,T),key(X))).
% message 5
attacker(senc(s,K)) :- attacker(N), attacker(senc(t3(ha,K,time),key(hb))), attacker(senc(nb(ha,hb,N),K)).

?- attacker(s).
