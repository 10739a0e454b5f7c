% What Octave finds with AMD below it: permutations, fills and residuals. What it prints must not change with libamd.
1;
function d = digest (p)
  w = mod ((1:numel (p))(:) * 7919, 99991);
  d = mod (sum (double (p(:)) .* w), 2^31);
end
function tell (name, A)
  n = rows (A);
  p = amd (A);
  q = amd (A, struct ("dense", 3.7, "aggressive", 0));
  s = symamd (A);
  [R, f, r] = chol (A, "vector");
  b = A * ones (n, 1);
  x = A \ b;
  B = A;
  B(1,2) = B(1,2) + 0.25;
  y = B \ b;
  [L, U, P, Q] = lu (B);
  printf ("%s, n %d, nnz %d: amd %08x, dense rows %08x, symamd %08x, chol %d %08x, A\\b %d, B\\b %d, lu %d %08x\n", name, n, nnz (A), ...
          digest (p), digest (q), digest (s), nnz (R), digest (r), norm (x - 1, inf) < 1e-9, norm (B * y - b, inf) < 1e-9, ...
          nnz (L) + nnz (U), digest (Q * (1:n)'));
end
path = @(n) spdiags ([-ones(n,1), 2*ones(n,1), -ones(n,1)], -1:1, n, n);
grid = @(n) kron (speye (n), path (n)) + kron (path (n), speye (n));
cube = @(n) kron (speye (n), grid (n)) + kron (path (n), speye (n^2));
tell ("grid 10", grid (10));
tell ("grid 60", grid (60));
tell ("grid 120", grid (120));
tell ("cube 12", cube (12));
rand ("seed", 5);
randn ("seed", 5);
for n = [50, 500, 2000]
  A = sprandsym (n, 4 / n);
  tell ("drawn", A + speye (n) * 20);
end
A = grid (40);
A(1,:) = 0.01;
A(:,1) = 0.01;
A(1,1) = 90;
tell ("a dense row", A);
