import QtQuick

Item {
    id: words
    property string text: "a rose is a rose"
    property int count: counted(text)

    function counted(text) {
        return text.split(" ").length;
    }

    Text {
        text: words.count
        color: "red"
    }
}
