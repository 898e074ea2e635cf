% Needham-Schroeder with public keys (Needham and Schroeder 1978)
%   1. A -> B: {Na, A}pkB
%   2. B -> A: {Na, Nb}pkA
%   3. A -> B: {Nb}pkB
%   4. B -> A: {s}Nb     (added: shows whether Nb can serve as a key)
%   5. A -> B: {s}Na     (added, likewise for Na)
% Public keys stand for identities and are known to all, so the messages to the
% key server are left out. A is initiator with anyone, B responder to anyone;
% the added messages are sent only where A means B, or B means A.
% literature: attack   A starts with the attacker, who passes A's messages on to B (Lowe 1996)
% answer: derivable 133 3 12

attacker(penc(M,P)) :- attacker(M), attacker(P).
attacker(pk(S)) :- attacker(S).
attacker(M) :- attacker(penc(M,pk(S))), attacker(S).
attacker(senc(M,K)) :- attacker(M), attacker(K).
attacker(M) :- attacker(senc(M,K)), attacker(K).
attacker(t2(X,Y)) :- attacker(X), attacker(Y).
attacker(X) :- attacker(t2(X,Y)).
attacker(Y) :- attacker(t2(X,Y)).

attacker(pk(ska)).
attacker(pk(skb)).
attacker(c).

% message 1: the attacker says with whom A is to talk
attacker(penc(t2(na(pk(X)),pk(ska)),pk(X))) :- attacker(pk(X)).
% message 2
attacker(penc(t2(N,nb(pk(X),N)),pk(X))) :- attacker(penc(t2(N,pk(X)),pk(skb))).
% message 3
attacker(penc(N,pk(X))) :- attacker(pk(X)), attacker(penc(t2(na(pk(X)),N),pk(ska))).
% message 4
attacker(senc(s,nb(pk(ska),N))) :- attacker(penc(t2(N,pk(ska)),pk(skb))), attacker(penc(nb(pk(ska),N),pk(skb))).
% message 5
attacker(senc(s,na(pk(skb)))) :- attacker(penc(t2(na(pk(skb)),N),pk(ska))).

?- attacker(s).
