func first() -> Int { 1 }
func second() -> Int { return first() }
func quiet() { print(2) }
func early(_ stop: Bool) {
  if stop {
    return
  }
  print(3)
}
func late() -> Int {
  return 4
  print(5)
}
func nothing() { }
func none() -> () { return nothing() }
@main struct App {
  static func main() {
    let give = { first() }
    let take = { () -> Bool in true }
    print(give() + second(), take())
    quiet()
    early(true)
    none()
    let done: () = nothing()
    _ = done
    print(late())
    return
  }
}
