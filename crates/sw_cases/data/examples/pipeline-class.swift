final class Page {
  let number: Int
  var words = 0
  init(number: Int) {
    self.number = number
  }
}
func load(_ number: Int) async -> Page {
  return Page(number: number)
}
func count(_ page: Page) async -> Page {
  page.words = page.number * 100
  return page
}
@main struct App {
  static func main() async {
    let loading = Task.detached { return await load(3) }
    let counting = Task.detached { return await count(loading.value) }
    let page = await counting.value
    print(page.number, page.words)
  }
}
