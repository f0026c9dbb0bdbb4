func sign(_ n: Int) -> Int {
  if n < 0 {
    return -1
  } else if n == 0 {
    return 0
  } else {
    return 1
  }
}
func grade(_ n: Int) -> Int {
  var grade = 0
  if n > 10 {
    grade = 1
  } else if n > 5 && n != 7 {
    let half = n / 2
    grade = half
  } else if n > 2 {
  }
  if grade == 0 {
    grade += 1
  }
  return grade
}
@main struct App {
  static func main() {
    if true {
      print(sign(3))
    } else {
      print(grade(4))
    }
  }
}
