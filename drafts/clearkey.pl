% A handshake whose key travels in the clear (a warning example, no author)
%   1. A -> B: k
%   2. B -> A: {s}k
% The messages arrive unaltered: listening is enough.
% literature: attack   whoever listens reads the key and then the secret
% answer: derivable 9 2 3

attacker(senc(M,K)) :- attacker(M), attacker(K).
attacker(M) :- attacker(senc(M,K)), attacker(K).

attacker(a).

attacker(k).
attacker(senc(s,k)) :- attacker(k).

?- attacker(s).
