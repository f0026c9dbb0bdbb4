struct Point {
  var x: Int
  var y: Int
  func sum() -> Int {
    return x + self.y
  }
}
struct Line {
  var start: Point
  var end: Point
}
@MainActor var shared = Line(start: Point(x: 0, y: 0), end: Point(x: 1, y: 1))
@main struct App {
  @MainActor static func main() {
    var line = Line(start: Point(x: 1, y: 2), end: Point(x: 3, y: 4))
    line.start = line.end
    line.end.x = line.start.y
    line.end.y += line.start.sum()
    shared.start = line.start
    shared.end.x -= shared.end.y
    let saved = line.end
    var boxed = line
    let change = {
      boxed.end = saved
      boxed.start.y *= 2
    }
    change()
    print(boxed.end.sum())
  }
}
