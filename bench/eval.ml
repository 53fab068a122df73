(* The functions of eval.propel, and the time that a call of one of them takes. It prints the seconds of each of RUNS runs. *)
type nat = Z | S of nat
type list = Nil | Cons of int * list

let rec onto a b = match a with Nil -> b | Cons (x, xs) -> onto xs (Cons (x, b))
let rev a = onto a Nil

let rec union a b =
  match a with
  | Nil -> b
  | Cons (x, xs) -> (
      match b with
      | Nil -> a
      | Cons (y, ys) ->
          if x <= (y : int) then if y <= x then Cons (x, union xs ys) else Cons (x, union xs b)
          else Cons (y, union a ys))

let rec add a b = match a with Z -> b | S p -> S (add p b)
let rec fold f e a = match a with Nil -> e | Cons (x, xs) -> f x (fold f e xs)
let greater (a : int) b = if a <= b then b else a
let largest a = fold greater 0 a
let rec revs n a = match n with Z -> rev a | S p -> ( match rev a with Nil -> a | Cons _ -> revs p a)
let rec unions n a b = match n with Z -> union a b | S p -> ( match union a b with Nil -> a | Cons _ -> unions p a b)
let rec adds n a b = match n with Z -> add a b | S p -> ( match add a b with Z -> a | S _ -> adds p a b)
let rec folds n a = match n with Z -> largest a | S p -> if largest a <= 0 then 0 else folds p a

let rec nat n = if n = 0 then Z else S (nat (n - 1))
let rec every first last = if first >= last then Nil else Cons (first, every (first + 2) last)

let () =
  let name = Sys.argv.(1) and size = int_of_string Sys.argv.(2) and again = nat (int_of_string Sys.argv.(3)) in
  let odd = every 1 (2 * size) and even = every 2 ((2 * size) + 2) and number = nat size in
  let work =
    match name with
    | "revs" -> fun () -> ignore (revs again odd)
    | "unions" -> fun () -> ignore (unions again odd even)
    | "adds" -> fun () -> ignore (adds again number number)
    | _ -> fun () -> ignore (folds again odd)
  in
  for _ = 1 to int_of_string Sys.argv.(4) do
    let start = Sys.time () in
    work ();
    Printf.printf "%f\n" (Sys.time () -. start)
  done
