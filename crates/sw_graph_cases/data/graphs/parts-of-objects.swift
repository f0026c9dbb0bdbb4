struct Point {
  var x: Int
  var y: Int
}
final class Shape {
  var corner: Point = Point(x: 0, y: 0)
  var next: Point = Point(x: 1, y: 1)
  func move() {
    corner.x += 1
    self.corner.y = corner.x
    next = corner
  }
}
final class Page {
  let shape = Shape()
  var turned = false
}
actor Desk {
  var corner: Point = Point(x: 2, y: 3)
  let page = Page()
  func push() {
    corner.x = corner.y
    page.shape.corner.y %= 2
  }
}
struct Book {
  let page: Page
  var mark: Int
}
@main struct App {
  static func main() async {
    let book = Book(page: Page(), mark: 1)
    book.page.shape.corner.x = book.mark
    book.page.shape.next.y -= 2
    book.page.turned = !book.page.turned
    book.page.shape.move()
    await Desk().push()
    print(book.page.shape.corner.x + book.page.shape.next.y)
  }
}
