-- Lists over a pipe, by simple-smt 0.9.7: a check, values, a scope with an unsat core, and a check after it.
--
-- usage: Scopes PROGRAM [ARGUMENT ..]; PROGRAM is cosmt itself.
module Main (main) where

import SimpleSMT
import qualified SimpleSMT as S
import System.Environment (getArgs)

-- Whether a value is built by a constructor, in the form that SMT-LIB 2.7 has.
is :: String -> SExpr -> SExpr
is constructor value = List [List [Atom "_", Atom "is", Atom constructor], value]

main :: IO ()
main = do
  program : arguments <- getArgs
  s <- newSolver program arguments Nothing
  setLogic s "ALL"
  declareDatatype s "Color" [] [("red", []), ("green", []), ("blue", [])]
  declareDatatype s "List" ["X"] [("nil", []), ("cons", [("head", Atom "X"), ("tail", List [Atom "List", Atom "X"])])]
  let list = List [Atom "List", Atom "Color"]
  x <- declare s "x" list
  y <- declare s "y" list
  f <- declareFun s "f" [Atom "Color"] (Atom "Color")
  S.assert s (x `eq` fun "cons" [List [f, Atom "red"], y])
  S.assert s (is "cons" y)
  check s >>= print
  values <- getExprs s [fun "head" [x], List [f, Atom "red"]]
  print (values !! 0 == (fun "head" [x], snd (values !! 1)))
  inNewScope s $ do
    S.assert s (named "same" (x `eq` y))
    S.assert s (named "longer" (is "cons" (fun "tail" [y])))
    check s >>= print
    getUnsatCore s >>= print
  check s >>= print
  stop s >>= print
