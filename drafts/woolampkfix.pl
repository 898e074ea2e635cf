% Woo-Lam mutual authentication with public keys, corrected (Woo and Lam, March 1992)
%   1. P -> C: P, Q
%   2. C -> P: {Q, pkQ}skC
%   3. P -> Q: {Np, P}pkQ
%   4. Q -> C: P, Q, {Np}pkC
%   5. C -> Q: {P, pkP}skC, {{Np, K, P, Q}skC}pkQ
%   6. Q -> P: {{Np, K, P, Q}skC, Nq}pkP
%   7. P -> Q: {Nq}K
%   8. P -> Q: {s}K      (added; Q sends the like)
% C is the key centre, and pkc its public key, which fits no host. Host H has the
% public key pk(H) and the secret key sk(H); all know all public keys, so the certificates {Q, pkQ}skC and
% {P, pkP}skC are left out. cert(..) is {..}skC: all can read it and only C makes it.
% The pairs of messages 3 and 6 are marked m3 and m6, since otherwise the one could be
% taken for the other and nest without end. ha plays P with any host, hb plays Q with
% any host, C serves any two; hc is the attacker's host.
% literature: secret   the signature on K now names both ends, as the authors' correction has it
% answer: secret 258 1 0
% sanity: reached attacker(senc(s,k(ha,hb,np(hb))))
% sanity: leak attacker(sk(ha))

attacker(penc(M,P)) :- attacker(M), attacker(P).
attacker(M) :- attacker(penc(M,pk(H))), attacker(sk(H)).
attacker(senc(M,K)) :- attacker(M), attacker(K).
attacker(M) :- attacker(senc(M,K)), attacker(K).
attacker(m3(X,Y)) :- attacker(X), attacker(Y).
attacker(X) :- attacker(m3(X,Y)).
attacker(Y) :- attacker(m3(X,Y)).
attacker(m6(X,Y)) :- attacker(X), attacker(Y).
attacker(X) :- attacker(m6(X,Y)).
attacker(Y) :- attacker(m6(X,Y)).
attacker(X) :- attacker(cert(X,Y,Z,W)).
attacker(Y) :- attacker(cert(X,Y,Z,W)).
attacker(Z) :- attacker(cert(X,Y,Z,W)).
attacker(W) :- attacker(cert(X,Y,Z,W)).

attacker(ha).
attacker(hb).
attacker(hc).
attacker(pkc).
attacker(pk(H)) :- attacker(H).
attacker(sk(hc)).

% message 3
attacker(penc(m3(np(Y),ha),pk(Y))) :- attacker(Y).
% message 4
attacker(penc(N,pkc)) :- attacker(penc(m3(N,X),pk(hb))).
% message 5, second part
attacker(penc(cert(N,k(X,Y,N),X,Y),pk(Y))) :- attacker(X), attacker(Y), attacker(penc(N,pkc)).
% message 6
attacker(penc(m6(cert(N,K,X,hb),nq(X,N,K)),pk(X))) :- attacker(penc(m3(N,X),pk(hb))), attacker(penc(cert(N,K,X,hb),pk(hb))).
% message 7
attacker(senc(M,K)) :- attacker(Y), attacker(penc(m6(cert(np(Y),K,ha,Y),M),pk(ha))).
% message 8, from P and from Q
attacker(senc(s,K)) :- attacker(penc(m6(cert(np(hb),K,ha,hb),M),pk(ha))).
attacker(senc(s,K)) :- attacker(penc(m3(N,ha),pk(hb))), attacker(penc(cert(N,K,ha,hb),pk(hb))), attacker(senc(nq(ha,N,K),K)).

?- attacker(s).
