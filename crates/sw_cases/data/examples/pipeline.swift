struct Page {
  let number: Int
  var words: Int
}
func load(_ number: Int) async -> Page {
  return Page(number: number, words: 0)
}
func count(_ page: Page) async -> Page {
  var counted = page
  counted.words = page.number * 100
  return counted
}
@main struct App {
  static func main() async {
    let loading = Task.detached { return await load(3) }
    let counting = Task.detached { return await count(loading.value) }
    let page = await counting.value
    print(page.number, page.words)
  }
}
