{-# LANGUAGE DeriveAnyClass, DeriveDataTypeable, FlexibleContexts, ScopedTypeVariables, StandaloneDeriving, TemplateHaskell #-}
-- Enumerations, Maybe, Either, tuples, an uninterpreted sort and a query, by SBV 8.17.
--
-- usage: Enumerations PROGRAM; PROGRAM is the whole path of share/cosmt-adapt, or its name where it is in a folder of PATH.
module Main (main) where

import Data.SBV
import Data.SBV.Control
import Data.SBV.Either (fromLeft, isLeft)
import Data.SBV.Maybe (isNothing, maybe)
import Data.SBV.Tuple (untuple)
import Prelude hiding (maybe)
import System.Environment (getArgs)

data Color = Red | Green | Blue
mkSymbolicEnumeration ''Color

data Item
mkUninterpretedSort ''Item

-- SBV speaks to the program as it speaks to z3.
by :: String -> SMTConfig
by program = z3 {solver = (solver z3) {executable = program, options = const []}}

main :: IO ()
main = do
  [program] <- getArgs
  let config = by program
      proved name p = proveWith config p >>= \answer -> putStrLn (name ++ ": " ++ show answer)
      possible name p = satWith config p >>= \answer -> putStrLn (name ++ ": " ++ show (modelExists answer))
  possible "three colors" (\(x :: SColor) y z -> distinct [x, y, z])
  proved "no fourth color" (\(x :: SColor) y z t -> sNot (distinct [x, y, z, t]))
  proved "equal items" $ do
    x <- free "x"
    y <- free "y"
    let f = uninterpret "f" :: SItem -> SItem
    return (x .== y .=> f x .== f y)
  proved "three times" $ do
    a <- free "a"
    let g = uninterpret "g" :: SBool -> SBool
    return (g (g (g a)) .== g a)
  proved "nothing" (\(m :: SMaybe Bool) -> maybe sTrue (const sFalse) m .== isNothing m)
  possible "left" (\(e :: SEither Bool Bool) -> isLeft e .&& fromLeft e)
  possible "pair" (\(t :: STuple Bool Bool) -> let (a, b) = untuple t in a .&& sNot b)
  answers <- runSMTWith config $ do
    x :: SColor <- free "x"
    y <- free "y"
    constrain (x ./= y)
    query $ do
      first <- checkSat
      value <- getValue x
      push 1
      constrain (y .== literal value)
      second <- checkSat
      constrain (x .== literal value)
      third <- checkSat
      pop 1
      fourth <- checkSat
      return [first, second, third, fourth]
  putStrLn ("query: " ++ show answers)
